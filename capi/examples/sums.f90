! sums.f90: the sum of squares of an array, by blocks: a task for each block, and a chain of tasks that adds the parts in order.
! The graph runs with gerfmuod_team_run and on OpenMP's threads, where the first sum awaits an input from outside. Then the team gets a
! new graph of tasks that name their data, which runs beside the program. Each is compared with one sum over the whole array.
!
!   gfortran -fopenmp capi/fortran/gerfmuod.f90 capi/examples/sums.f90 -Llib -lgerfmuod -pthread -o sums && ./sums
module blocks
  use gerfmuod
  implicit none
  integer, parameter :: length = 1000, count = 64
  real(8) :: x(length * count), part(count), total(0:count)
contains
  ! Tasks 0 to count - 1 square a block each; task count + k adds the part of block k to the total before it.
  recursive function run_task(context, task) bind(c) result(failed)
    type(c_ptr), value :: context
    integer(c_int32_t), value :: task
    integer(c_int) :: failed
    integer :: k
    k = modulo(task, count) + 1
    if (task < count) then
      part(k) = sum(x((k - 1) * length + 1 : k * length) ** 2)
    else
      total(k) = total(k - 1) + part(k)
    end if
    failed = 0
  end function

  subroutine need(refused)
    integer(c_int32_t), intent(in) :: refused
    if (refused == gerfmuod_ok) return
    print '(2a)', 'refused: ', gerfmuod_refusal_text(refused)
    stop 1
  end subroutine

  subroutine describe(team)
    type(c_ptr), intent(in) :: team
    integer(c_int32_t) :: offsets(2 * count + 1), inputs(2 * count)
    integer :: k, used
    used = 0
    do k = 0, 2 * count - 1
      offsets(k + 1) = used
      if (k >= count) then
        inputs(used + 1) = k - count
        used = used + 1
      end if
      if (k > count) then
        inputs(used + 1) = k - 1
        used = used + 1
      end if
    end do
    offsets(2 * count + 1) = used
    total = 0
    call need(gerfmuod_team_describe(team, 2 * count, offsets=offsets, inputs=inputs))
  end subroutine

  ! The same, by the data that each task accesses: a part, or a part and the total. So the sums follow each other.
  subroutine describe_by_data(team)
    type(c_ptr), intent(in) :: team
    integer(c_int32_t) :: parts(count), sum_so_far
    integer :: k
    total = 0
    call need(gerfmuod_team_handle(team, sum_so_far))
    do k = 1, count
      call need(gerfmuod_team_handle(team, parts(k)))
      call need(gerfmuod_team_task_on(team, 0, [gerfmuod_access(parts(k), gerfmuod_write)], 1_c_size_t, 0, &
        c_null_funptr, c_null_ptr))
    end do
    do k = 1, count
      call need(gerfmuod_team_task_on(team, 0, &
        [gerfmuod_access(parts(k), gerfmuod_read), gerfmuod_access(sum_so_far, gerfmuod_update)], 2_c_size_t, 0, &
        c_null_funptr, c_null_ptr))
    end do
  end subroutine
end module

program sums
  use blocks
  implicit none
  type(c_ptr) :: team
  type(gerfmuod_graph_result) :: answer
  integer(c_int32_t) :: done
  integer :: i
  x = [(1.0d0 / i, i = 1, size(x))]

  call need(gerfmuod_team_open(team))
  call describe(team)
  call need(gerfmuod_team_run(team, 4, c_funloc(run_task), c_null_ptr))
  call compare('gerfmuod_team_run')

  total = 0
  call need(gerfmuod_team_again(team))
  call need(gerfmuod_team_outside(team, count))
  call need(gerfmuod_team_start(team, 4))
  call need(gerfmuod_team_release(team, count))
  !$omp parallel num_threads(4) private(answer, done)
  done = gerfmuod_graph_none
  do
    answer = gerfmuod_team_turn(team, done)
    if (answer%refused /= gerfmuod_ok .or. answer%next == gerfmuod_graph_over) exit
    done = answer%number
    if (run_task(c_null_ptr, done) /= 0) call gerfmuod_team_stop(team, done)
  end do
  !$omp end parallel
  call compare('threads of OpenMP')

  call need(gerfmuod_team_clear(team))
  call describe_by_data(team)
  call need(gerfmuod_team_run_async(team, 4, c_funloc(run_task), c_null_ptr))
  call need(gerfmuod_team_wait(team, gerfmuod_team_no_limit))
  if (gerfmuod_team_left(team) /= 0) stop 3
  call gerfmuod_team_close(team)
  call compare('tasks with data')
contains
  subroutine compare(way)
    character(*), intent(in) :: way
    print '(a, a, f12.9)', way, ': ', total(count)
    if (abs(total(count) - sum(x ** 2)) > 1d-12) stop 2
  end subroutine
end program
