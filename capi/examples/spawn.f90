! spawn.f90: a sum by tasks that make tasks. A task with a long range makes a task of each half; the others add up theirs. The
! sum of their results is compared with one sum over the whole range.
!
!   gfortran capi/fortran/gerfmuod.f90 capi/examples/spawn.f90 -Llib -lgerfmuod -pthread -o spawn && ./spawn
module halves
  use gerfmuod
  implicit none
  integer, parameter :: terms = 64000, short = 125, most = 2048
  type, bind(c) :: range
    integer(c_int32_t) :: first, last
  end type
  type(c_ptr) :: team
  type(range) :: ranges(0:most) = range(0, 0)
  real(8) :: part(0:most) = 0
contains
  ! The task is new: no thread can run it yet.
  subroutine attach(data, task) bind(c)
    type(c_ptr), value :: data
    integer(c_int32_t), value :: task
    type(range), pointer :: own
    call c_f_pointer(data, own)
    ranges(task) = own
  end subroutine

  subroutine spawn(first, last)
    integer(c_int32_t), intent(in) :: first, last
    type(range), target :: own
    own = range(first, last)
    call need(gerfmuod_team_spawn(team, 0, gerfmuod_no_inputs, 0_c_size_t, 0, c_funloc(attach), c_loc(own)))
  end subroutine

  recursive function run_task(context, task) bind(c) result(failed)
    type(c_ptr), value :: context
    integer(c_int32_t), value :: task
    integer(c_int) :: failed
    integer(c_int32_t) :: middle, k
    associate (own => ranges(task))
      if (own%last - own%first < short) then
        do k = own%first, own%last
          part(task) = part(task) + 1 / real(k, 8) ** 2
        end do
      else
        middle = (own%first + own%last) / 2
        call spawn(own%first, middle)
        call spawn(middle + 1, own%last)
      end if
    end associate
    failed = 0
  end function

  subroutine need(refused)
    integer(c_int32_t), intent(in) :: refused
    if (refused == gerfmuod_ok) return
    print '(2a)', 'refused: ', gerfmuod_refusal_text(refused)
    stop 1
  end subroutine
end module

program sum_by_halves
  use halves
  implicit none
  integer :: k, tasks
  real(8) :: whole
  whole = sum([(1 / real(k, 8) ** 2, k = 1, terms)])
  call need(gerfmuod_team_open(team))
  call spawn(1, terms)
  call need(gerfmuod_team_run(team, 4, c_funloc(run_task), c_null_ptr))
  call gerfmuod_team_close(team)
  tasks = count(ranges%last > 0)
  if (abs(sum(part) - whole) > 1d-9) stop 2
  print '(f11.9, a, i0, a)', sum(part), ', ', tasks, ' tasks'
end program
