! A recursion without an end: where 200 calls are open, the next one is a trap.
program depth
  implicit none

  call down(1)

contains

  subroutine down(level)
    integer, intent(in) :: level

    if (mod(level, 50) == 0) print *, level, 'calls are open'
    call down(level + 1)
  end subroutine down

end program depth
