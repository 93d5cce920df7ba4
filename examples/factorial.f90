! Factorials, up to the trap: 21 factorial is more than 64 bits hold. What was printed before the trap stays.
program factorials
  implicit none
  integer :: i, factorial

  factorial = 1
  do i = 1, 25
    factorial = factorial * i
    if (i >= 18) print *, i, factorial
  end do
  print *, 'never printed'
end program factorials
