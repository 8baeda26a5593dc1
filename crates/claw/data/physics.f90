! A small model: parameters and shared state, a function, a column unit, and a driver of plain units
module mo_constants
  integer, parameter :: levels = 4, scale = 10
  integer :: steps, history(levels)
contains
  integer function clipped(given, limit) result(clip)
    integer, intent(in) :: limit, given
    clip = min(given, limit)
  end function clipped
  subroutine remember(given)
    integer, intent(in) :: given
    integer :: k
    do k = levels, 2, -1
      history(k) = history(k - 1)
    end do
    history(1) = given; steps = steps + 1
  end subroutine
end module mo_constants

subroutine advance(n, field, total)
  use mo_constants, only: scale, clipped, remember
  implicit none
  integer, intent(in) :: n
  integer, intent(inout) :: field(0:n+1)
  integer(8), intent(out) :: total
  logical :: odd
  integer :: i
  total = 0_8
  do i = 1, n
    odd = mod(i, 2) == 1
    if (odd .and. field(i) > 0) then
      field(i) = clipped(field(i)*scale, 1000)
    else if (field(i) < -5) then
      cycle
    end if
    total = total + int(field(i), 8)
    select case (field(i))
    case (:-1); exit
    case (1, 3:5)
      call remember(field(i))
    case default
    end select
  end do
  field(1:n) = field(0:n-1)
end subroutine advance

subroutine add(a, b)
  integer, intent(in) :: a
  integer, intent(inout) :: b
  !$claw define dimension col(1:ncol) parallelize data(a, b)
  b = b + a*2
end subroutine add
