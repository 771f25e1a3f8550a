! first.f90: two tasks, and a third one that waits for both: the Fortran program of docs/YOUR-BODIES.md.
module bodies
  use gerfmuod
  implicit none
  real(8) :: x, y, z
contains
  recursive function run_task(context, task) bind(c) result(failed)
    type(c_ptr), value :: context
    integer(c_int32_t), value :: task
    integer(c_int) :: failed
    if (task == 0) x = sqrt(2.0d0)
    if (task == 1) y = exp(1.0d0)
    if (task == 2) z = x * y
    failed = 0 ! the task is done
  end function
end module

program first
  use bodies
  implicit none
  type(c_ptr) :: team
  integer(c_int32_t) :: refused
  refused = gerfmuod_team_open(team)
  if (refused == 0) refused = gerfmuod_team_describe(team, 3, offsets=[0, 0, 0, 2], inputs=[0, 1])
  if (refused == 0) refused = gerfmuod_team_run(team, 4, c_funloc(run_task), c_null_ptr)
  if (refused /= 0) print '(a)', gerfmuod_refusal_text(refused)
  if (refused == 0) print '(f8.6)', z ! 3.844231
  call gerfmuod_team_close(team)
end program
