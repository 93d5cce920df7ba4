! How often each last digit comes among the squares of 1 to 50.
! The bounds of the array are 0 and 9, so that a digit is its own subscript.
program digits
  implicit none
  integer, parameter :: last = 50
  integer :: times(0:9), i, digit

  do i = 1, last
    digit = mod(i * i, 10)
    times(digit) = times(digit) + 1
  end do

  do digit = 0, 9
    if (times(digit) > 0) then
      print *, digit, 'comes', times(digit), 'times'
    else
      print *, digit, 'never comes'
    end if
  end do
end program digits
