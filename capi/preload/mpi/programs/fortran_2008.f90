! fortran_2008.f90: as fortran.f90, with the module mpi_f08: a ring, and a receive whose tag nobody sends.
program fortran_2008
  use mpi_f08
  implicit none
  integer :: me, n, x, k, t, times = 1, error
  type(MPI_Status) :: status
  type(MPI_Request) :: request
  character(len=16) :: mode, number
  call get_command_argument(1, mode)
  call get_command_argument(2, number)
  if (number /= '') read (number, *) times
  call MPI_Init(error)
  call MPI_Comm_rank(MPI_COMM_WORLD, me, error)
  call MPI_Comm_size(MPI_COMM_WORLD, n, error)
  do t = 1, times
    do k = 1, 20
      call MPI_Irecv(x, 1, MPI_INTEGER, modulo(me - 1, n), 5, MPI_COMM_WORLD, request, error)
      call MPI_Send(k, 1, MPI_INTEGER, modulo(me + 1, n), 5, MPI_COMM_WORLD, error)
      call MPI_Wait(request, MPI_STATUS_IGNORE, error)
      if (x /= k) call MPI_Abort(MPI_COMM_WORLD, 3, error)
    end do
    call MPI_Allreduce(MPI_IN_PLACE, x, 1, MPI_INTEGER, MPI_SUM, MPI_COMM_WORLD, error)
    if (x /= 20 * n) call MPI_Abort(MPI_COMM_WORLD, 4, error)
  end do
  if (mode == 'wrong') call wrong_tag()
  call MPI_Finalize(error)
  if (me == 0) print '(a, i0)', 'done ', times
contains
  subroutine wrong_tag()
    if (me == 1) call MPI_Send(x, 1, MPI_INTEGER, 0, 7, MPI_COMM_WORLD, error)
    if (me == 0) call MPI_Recv(x, 1, MPI_INTEGER, 1, 8, MPI_COMM_WORLD, status, error)
  end subroutine
end program
