! Image 0 ships a subroutine to image 1. `check` follows it by the choices of greeting.trace, one line a choice.
program greeting
  implicit none
  if (team_rank() == 0) then
    spawn greet(7)[1]
  end if
contains
  subroutine greet(k)
    integer, intent(in) :: k
    print *, 'image', team_rank(), 'is greeted with', k
  end subroutine greet
end program greeting
