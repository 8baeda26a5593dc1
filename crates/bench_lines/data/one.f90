subroutine add(a, b)
  integer, intent(in) :: a
  integer, intent(inout) :: b
  !$claw define dimension col(1:ncol) parallelize data(a, b)
  b = b + a*2
end subroutine add
