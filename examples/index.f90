! A subscript outside the bounds stops the image with a trap.
program beyond
  implicit none
  integer :: a(5), i

  do i = 1, 6
    a(i) = i * i
    print *, i, a(i)
  end do
  print *, 'never printed'
end program beyond
