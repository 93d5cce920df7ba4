! The binomial numbers of 10, row by row of Pascal's triangle in one array.
! A row is made in place from its end to its beginning, by a loop with a negative step.
program binomials
  implicit none
  integer, parameter :: n = 10
  integer :: c(0:n), row, k, total

  c(0) = 1
  do row = 1, n
    do k = row, 1, -1
      c(k) = c(k) + c(k - 1)
    end do
  end do

  do k = 0, n / 2
    print *, n, 'over', k, 'is', c(k)
  end do
  do k = 0, n
    total = total + c(k)
  end do
  print *, 'all of them together', total
end program binomials
