! Loops in loops, with steps up and down. The turns are counted before the first one, and after the last one the variable
! is one step further.
program loops
  implicit none
  integer :: i, j

  do i = 3, 1, -1
    do j = i, 10, 4
      print *, i, j
    end do
  end do
  print *, 'afterwards', i, j

  do i = 1, 0
    print *, 'a loop from 1 up to 0 has no turn'
  end do
  print *, 'its variable is', i
end program loops
