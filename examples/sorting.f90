! Insertion sort. Both sides of .and. are always evaluated, so max keeps the subscript within the bounds where j is 0.
program sorting
  implicit none
  integer, parameter :: n = 8
  integer :: a(n), i, j, held

  do i = 1, n
    a(i) = mod(7 * i * i, 31)
  end do
  print *, 'before', a(1), a(2), a(3), a(4), a(5), a(6), a(7), a(8)

  do i = 2, n
    held = a(i)
    j = i - 1
    do while (j > 0 .and. a(max(j, 1)) > held)
      a(j + 1) = a(j)
      j = j - 1
    end do
    a(j + 1) = held
  end do
  print *, 'after', a(1), a(2), a(3), a(4), a(5), a(6), a(7), a(8)
end program sorting
