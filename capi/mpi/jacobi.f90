! jacobi.f90: heat in a ring of blocks, over the processes of MPI, as a task graph with data handles: mpi_jacobi.c in Fortran.
!
!   mpicc -c -O2 -Icapi/include capi/include/gerfmuod/mpi.c
!   mpifort -O2 capi/fortran/gerfmuod.f90 capi/fortran/gerfmuod_mpi.f90 capi/mpi/jacobi.f90 mpi.o -Llib -lgerfmuod -pthread -o jacobi
!   mpirun -n 4 ./jacobi
module bodies
  use gerfmuod_mpi
  implicit none
contains
  ! Computes a block once more, and then its two ends. It reads the ends of the blocks next to it.
  recursive function step(arguments, values) bind(c) result(failed)
    type(c_ptr), value :: arguments
    type(c_ptr), intent(in) :: values(*)
    integer(c_int) :: failed
    integer(c_int), pointer :: cells
    real(c_double), pointer :: heat(:), ends(:), before(:), after(:)
    call c_f_pointer(arguments, cells)
    call c_f_pointer(values(1), heat, [cells])
    call c_f_pointer(values(2), ends, [2])
    call c_f_pointer(values(3), before, [2])
    call c_f_pointer(values(4), after, [2])
    heat = ([before(2), heat(:cells - 1)] + heat + [heat(2:), after(1)]) / 3
    ends = heat([1, cells])
    failed = 0
  end function

  recursive function add(arguments, values) bind(c) result(failed)
    type(c_ptr), value :: arguments
    type(c_ptr), intent(in) :: values(*)
    integer(c_int) :: failed
    integer(c_int), pointer :: cells
    real(c_double), pointer :: total, heat(:)
    call c_f_pointer(arguments, cells)
    call c_f_pointer(values(1), total)
    call c_f_pointer(values(2), heat, [cells])
    total = total + sum(heat)
    failed = 0
  end function
end module

program jacobi
  use mpi_f08
  use bodies
  implicit none
  integer, parameter :: blocks = 32, steps = 100, threads = 2
  integer(c_int), target :: cells = 1000
  real(c_double), target :: heat(1000, 0:blocks - 1) = 0, ends(2, 0:1, 0:blocks - 1) = 0, total = 0 ! ends: for even and odd steps
  integer(c_int32_t) :: block(0:blocks - 1), border(0:1, 0:blocks - 1), whole, left, right, next, refused
  integer :: provided, processes, owner, b, k, s
  type(c_ptr) :: graph

  call MPI_Init_thread(MPI_THREAD_FUNNELED, provided)
  call MPI_Comm_size(MPI_COMM_WORLD, processes)
  if (gerfmuod_mpi_open(graph, MPI_COMM_WORLD%MPI_VAL) /= gerfmuod_ok) call MPI_Abort(MPI_COMM_WORLD, 1)
  heat(1, 0) = 1000
  ends(1, 0, 0) = 1000
  do b = 0, blocks - 1
    owner = b * processes / blocks ! neighbours live together
    block(b) = gerfmuod_mpi_data(graph, owner, c_loc(heat(:, b)), cells * c_sizeof(total))
    do k = 0, 1
      border(k, b) = gerfmuod_mpi_data(graph, owner, c_loc(ends(:, k, b)), 2 * c_sizeof(total))
    end do
  end do
  whole = gerfmuod_mpi_data(graph, 0, c_loc(total), c_sizeof(total))
  do s = 0, steps - 1
    do b = 0, blocks - 1
      left = border(modulo(s, 2), modulo(b - 1, blocks))
      right = border(modulo(s, 2), modulo(b + 1, blocks))
      next = border(modulo(s + 1, 2), b)
      call gerfmuod_mpi_task(graph, 0, step, &
        [gerfmuod_access(block(b), gerfmuod_update), gerfmuod_access(next, gerfmuod_write), &
         gerfmuod_access(left, gerfmuod_read), gerfmuod_access(right, gerfmuod_read)], c_loc(cells), c_sizeof(cells))
    end do
  end do
  do b = 0, blocks - 1
    call gerfmuod_mpi_task(graph, 0, add, &
      [gerfmuod_access(whole, gerfmuod_update), gerfmuod_access(block(b), gerfmuod_read)], c_loc(cells), c_sizeof(cells))
  end do
  refused = gerfmuod_mpi_run(graph, threads)
  if (total > 0) print '(i0, a, i0, a, f0.6)', steps, ' steps of ', blocks * cells, ' cells, sum ', total ! in process 0
  call gerfmuod_mpi_close(graph)
  call MPI_Finalize()
  if (refused /= gerfmuod_ok) error stop 'refused: '//gerfmuod_refusal_text(refused)
end program
