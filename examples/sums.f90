! Sums of the numbers from 1 to 100, of their squares, and of the odd ones among them.
! Variables begin at 0, so that no sum has to be set before the loop.
program sums
  implicit none
  integer, parameter :: last = 100
  integer :: i, total, squares, odd

  do i = 1, last
    total = total + i
    squares = squares + i * i
    if (mod(i, 2) == 1) odd = odd + i
  end do

  print *, 'numbers from 1 to', last
  print *, 'sum', total, 'of squares', squares, 'of odd ones', odd
end program sums
