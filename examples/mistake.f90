! A program that is refused, since a name is misspelled. Nothing of it runs.
program mistake
  implicit none
  integer :: height

  height = 180
  print *, 'the height is', hieght
end program mistake
