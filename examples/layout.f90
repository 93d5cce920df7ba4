! How a program may be laid out: comments, blanks, lines that go on, several statements on a line, capitals.
PROGRAM Layout                     ; implicit none
  Integer :: Total, i              ! `Total` and `total` are one name

  ! A statement goes on where `&` is the last sign of its line. Comments and empty lines may stand between.
  total = 1 + 2 &   ! the first two

        + 3 &
        & + 4       ! a `&` at the front is skipped

  do i = 1, 3; total = total + i; end do
  PRINT *, 'Capitals stay capitals in a text:', total
ENDPROGRAM
