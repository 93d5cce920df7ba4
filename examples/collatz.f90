! From a number to 1: an even number is halved, of an odd one three times the number and 1 are taken.
program collatz
  implicit none

  call walk(1)
  call walk(6)
  call walk(7)
  call walk(27)

contains

  subroutine walk(start)
    integer, intent(in) :: start
    integer :: n, steps, highest

    n = start
    highest = start
    do while (n /= 1)
      if (mod(n, 2) == 0) then
        n = n / 2
      else
        n = 3 * n + 1
      end if
      steps = steps + 1
      highest = max(highest, n)
    end do
    print *, start, 'takes', steps, 'steps and comes up to', highest
  end subroutine walk

end program collatz
