! An array is turned round by a subroutine that swaps two elements. What stands for a dummy of intent(inout) is copied in
! at the call and copied out at the end, to the elements that the call named.
program reversing
  implicit none
  integer, parameter :: n = 5
  integer :: a(n), i

  do i = 1, n
    a(i) = 10 * i
  end do
  do i = 1, n / 2
    call swap(a(i), a(n + 1 - i))
  end do
  print *, a(1), a(2), a(3), a(4), a(5)

contains

  subroutine swap(left, right)
    integer, intent(inout) :: left, right
    integer :: held

    held = left
    left = right
    right = held
  end subroutine swap

end program reversing
