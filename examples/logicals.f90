! Logical values and texts. A logical is printed as T or F, and a text without its quotes.
program logicals
  implicit none
  integer :: degrees
  logical :: sunny, warm

  degrees = 23
  sunny = .false.
  warm = degrees >= 20 .and. degrees <= 30
  print *, 'sunny', sunny, 'warm', warm

  ! .not. binds looser than a relation and tighter than .and., .or. and .eqv.
  print *, "it isn't cold:", .not. degrees < 10
  print *, 'both', sunny .and. warm, 'one at least', sunny .or. warm
  print *, 'alike', sunny .eqv. warm, 'one alone', sunny .neqv. warm
  print *, 'a ''word'' in single quotes and a "word" in double ones'
end program logicals
