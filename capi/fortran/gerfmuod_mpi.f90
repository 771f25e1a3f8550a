! gerfmuod_mpi.f90: one task graph over the processes of an MPI communicator, from Fortran, over gerfmuod/mpi.h. This header describes
! each call and its refusals.
!
! A communicator is an integer here: comm%MPI_VAL with the module mpi_f08, comm with the module mpi. Compile gerfmuod/mpi.c with the
! mpicc of your MPI, and gerfmuod.f90, this file and your program with its mpifort; link with -lgerfmuod -pthread.
module gerfmuod_mpi
  use gerfmuod
  implicit none
  public

  abstract interface
    ! A body. values(k) is the address of the task's k-th datum. It returns 0, or another number if it failed. Several threads may run
    ! it at once: declare it recursive, or a compiler may keep its local variables in static memory.
    recursive function gerfmuod_mpi_body(arguments, values) bind(c) result(failed)
      import :: c_ptr, c_int
      type(c_ptr), value :: arguments
      type(c_ptr), intent(in) :: values(*)
      integer(c_int) :: failed
    end function
  end interface

  interface
    function gerfmuod_mpi_open(graph, communicator) bind(c, name='gerfmuod_mpi_open_fortran') result(refused)
      import :: c_ptr, c_int, c_int32_t
      type(c_ptr), intent(out) :: graph
      integer(c_int), value :: communicator
      integer(c_int32_t) :: refused
    end function

    ! `at` is c_loc of a variable, which needs the attribute target and stays until the run has ended; bytes is c_sizeof of it.
    function gerfmuod_mpi_data(graph, owner, at, bytes) bind(c) result(handle)
      import :: c_ptr, c_int, c_int32_t, c_size_t
      type(c_ptr), value :: graph, at
      integer(c_int), value :: owner
      integer(c_size_t), value :: bytes
      integer(c_int32_t) :: handle
    end function

    function gerfmuod_mpi_run(graph, threads) bind(c) result(refused)
      import :: c_ptr, c_int32_t
      type(c_ptr), value :: graph
      integer(c_int32_t), value :: threads
      integer(c_int32_t) :: refused
    end function

    subroutine gerfmuod_mpi_failed(graph, process, task) bind(c)
      import :: c_ptr, c_int, c_int32_t
      type(c_ptr), value :: graph
      integer(c_int), intent(out) :: process
      integer(c_int32_t), intent(out) :: task
    end subroutine

    function gerfmuod_mpi_messages(graph) bind(c) result(messages)
      import :: c_ptr, c_int64_t
      type(c_ptr), value :: graph
      integer(c_int64_t) :: messages
    end function

    subroutine gerfmuod_mpi_close(graph) bind(c)
      import :: c_ptr
      type(c_ptr), value :: graph
    end subroutine

    ! gerfmuod_mpi_task calls it. body is c_funloc of a gerfmuod_mpi_body.
    subroutine gerfmuod_mpi_task_on(graph, class, body, arguments, bytes, accesses, count) bind(c)
      import :: c_ptr, c_funptr, c_int32_t, c_size_t, gerfmuod_access
      type(c_ptr), value :: graph, arguments
      integer(c_int32_t), value :: class
      type(c_funptr), value :: body
      integer(c_size_t), value :: bytes, count
      type(gerfmuod_access), intent(in) :: accesses(*)
    end subroutine
  end interface

contains

  ! Describes a task. Its body gets a copy of the `bytes` bytes at `arguments`, if both are given.
  subroutine gerfmuod_mpi_task(graph, class, body, accesses, arguments, bytes)
    type(c_ptr), intent(in) :: graph
    integer(c_int32_t), intent(in) :: class
    procedure(gerfmuod_mpi_body) :: body
    type(gerfmuod_access), intent(in) :: accesses(:)
    type(c_ptr), intent(in), optional :: arguments
    integer(c_size_t), intent(in), optional :: bytes
    integer(c_size_t) :: count
    count = size(accesses, kind=c_size_t)
    if (present(arguments) .and. present(bytes)) then
      call gerfmuod_mpi_task_on(graph, class, c_funloc(body), arguments, bytes, accesses, count)
    else
      call gerfmuod_mpi_task_on(graph, class, c_funloc(body), c_null_ptr, 0_c_size_t, accesses, count)
    end if
  end subroutine
end module
