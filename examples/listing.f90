! A program whose listing is shown: an assignment, a short if, and a call with a dummy that is copied out.
program listing
  implicit none
  integer :: total

  total = 2
  if (total > 1) print *, 'it''s', total
  call add(5, total)

contains

  subroutine add(n, sum)
    integer, intent(in) :: n
    integer, intent(inout) :: sum

    sum = sum + n
  end subroutine add

end program listing
