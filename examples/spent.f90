! A loop without an end, cut off after ten entries of its journal: a turn is three, one for the condition, one for the
! assignment and one for the line. The tenth is the condition of the fourth turn.
program endless
  implicit none
  integer :: i

  do while (.true.)
    i = i + 1
    print *, i
  end do
end program endless
