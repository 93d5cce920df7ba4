! The greatest common divisor of two numbers, by Euclid's algorithm.
! A subroutine hands a result back through a dummy of intent(inout).
program divisors
  implicit none
  integer :: answer

  call gcd(1071, 462, answer)
  print *, '1071 and 462:', answer
  call gcd(17, 5, answer)
  print *, '17 and 5:', answer
  call gcd(-48, 36, answer)
  print *, '-48 and 36:', answer
  call gcd(0, 7, answer)
  print *, '0 and 7:', answer

contains

  subroutine gcd(first, second, divisor)
    integer, intent(in) :: first, second
    integer, intent(inout) :: divisor
    integer :: left, rest

    divisor = abs(first)
    left = abs(second)
    do while (left /= 0)
      rest = mod(divisor, left)
      divisor = left
      left = rest
    end do
  end subroutine gcd

end program divisors
