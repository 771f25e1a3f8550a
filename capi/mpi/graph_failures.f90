! graph_failures.f90: tests the module gerfmuod_mpi, over the module mpi: a chain of tasks through all processes, which runs to its
! end, or is stopped by a body, or is not run because its description was refused. Compiled as jacobi.f90, which says how.
module chain
  use gerfmuod_mpi
  implicit none
contains
  ! Writes twice the value before it, unless its argument is not 0: then it fails.
  recursive function twice(arguments, values) bind(c) result(failed)
    type(c_ptr), value :: arguments
    type(c_ptr), intent(in) :: values(*)
    integer(c_int) :: failed
    integer(c_int), pointer :: fails, own, before
    call c_f_pointer(arguments, fails)
    call c_f_pointer(values(1), own)
    call c_f_pointer(values(2), before)
    failed = fails
    if (failed == 0) own = 2 * before
  end function
end module

program graph_failures
  use mpi
  use chain
  implicit none
  integer, parameter :: last = 7, threads = 2
  integer(c_int), target :: value(0:last) ! of datum k, which lives in process mod(k, processes)
  integer(c_int32_t) :: datum(0:last), unused, task
  integer(c_int) :: process
  integer :: provided, error, me, processes, k
  type(c_ptr) :: graph
  call MPI_Init_thread(MPI_THREAD_FUNNELED, provided, error)
  call MPI_Comm_rank(MPI_COMM_WORLD, me, error)
  call MPI_Comm_size(MPI_COMM_WORLD, processes, error)

  call describe()
  call run(threads, gerfmuod_ok, last)
  k = count([(mod(k, processes) == me .and. processes > 1, k = 0, last - 1)]) ! each value but the last goes to the next process
  if (gerfmuod_mpi_messages(graph) /= k) error stop 'another number of messages'
  call run(threads, gerfmuod_refused_wrong_life, last)
  call gerfmuod_mpi_close(graph)

  call describe(failing=4)
  call run(threads, gerfmuod_refused_stopped, 4)
  call gerfmuod_mpi_failed(graph, process, task)
  if (process /= mod(5, processes) .or. task /= 4) error stop 'another task failed' ! it writes datum 5
  call gerfmuod_mpi_close(graph)

  call describe()
  unused = gerfmuod_mpi_data(graph, processes, c_loc(value), c_sizeof(value))
  call is_refused(gerfmuod_refused_no_node)

  call describe()
  call gerfmuod_mpi_task(graph, 0, twice, [gerfmuod_access ::])
  call is_refused(gerfmuod_refused_bad_spec)

  call describe()
  call run(0, gerfmuod_refused_no_thread, 0)
  call gerfmuod_mpi_close(graph)

  call describe()
  if (me == 0) unused = gerfmuod_mpi_data(graph, 0, c_loc(value), c_sizeof(value))
  call is_refused(merge(gerfmuod_refused_different, gerfmuod_ok, processes > 1))

  call MPI_Finalize(error)
  if (me == 0) print '(a)', 'the chain ended, was stopped and was refused'

contains

  ! Opens a graph with data 0 to 7 and tasks 0 to 6; task k writes datum k + 1, twice datum k.
  subroutine describe(failing)
    integer, intent(in), optional :: failing
    integer(c_int), target :: fails
    value = 0
    value(0) = 1
    if (gerfmuod_mpi_open(graph, MPI_COMM_WORLD) /= gerfmuod_ok) error stop 'the graph was not opened'
    do k = 0, last
      datum(k) = gerfmuod_mpi_data(graph, mod(k, processes), c_loc(value(k)), c_sizeof(value(k)))
    end do
    do k = 0, last - 1
      fails = 0
      if (present(failing)) fails = merge(1, 0, k == failing)
      call gerfmuod_mpi_task(graph, mod(k, 4), twice, &
        [gerfmuod_access(datum(k + 1), gerfmuod_write), gerfmuod_access(datum(k), gerfmuod_read)], c_loc(fails), c_sizeof(fails))
    end do
  end subroutine

  ! Compares what a run returns, and the values: those of this process up to the newest are powers of 2, all others as they were.
  subroutine run(threads_of_run, expected, newest)
    integer, intent(in) :: threads_of_run, newest
    integer(c_int32_t), intent(in) :: expected
    integer(c_int32_t) :: refused
    refused = gerfmuod_mpi_run(graph, threads_of_run)
    if (refused /= expected) error stop gerfmuod_refusal_text(refused)//', but expected is '//gerfmuod_refusal_text(expected)
    if (value(0) /= 1) error stop 'another first value'
    do k = 1, last
      if (value(k) /= merge(2 ** k, 0, k <= newest .and. mod(k, processes) == me)) error stop 'another value'
    end do
  end subroutine

  subroutine is_refused(expected)
    integer(c_int32_t), intent(in) :: expected
    call run(threads, expected, merge(last, 0, expected == gerfmuod_ok))
    call gerfmuod_mpi_close(graph)
  end subroutine
end program
