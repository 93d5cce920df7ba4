! Fibonacci numbers by recursion. Each call has locals of its own, which begin at 0.
program numbers
  implicit none
  integer :: n, answer

  do n = 0, 15, 5
    call fibonacci(n, answer)
    print *, 'fibonacci', n, 'is', answer
  end do

contains

  subroutine fibonacci(n, value)
    integer, intent(in) :: n
    integer, intent(inout) :: value
    integer :: one_before, two_before

    if (n < 2) then
      value = n
    else
      call fibonacci(n - 1, one_before)
      call fibonacci(n - 2, two_before)
      value = one_before + two_before
    end if
  end subroutine fibonacci

end program numbers
