#!/bin/sh
# others.sh MODE [TIMES]: a rank of HPCC or of a test of ScaLAPACK, which check their results. No verdict may be printed.
#
# `modes MPI`, openmpi or mpich, lists them as right.c does: the name, the fewest ranks, and which package is missing. TIMES is only
# printed: a program runs once.
tests=/usr/lib/x86_64-linux-gnu/scalapack
if [ "$1" = modes ]; then
    missing=
    if [ ! -d $tests ]; then missing='lacks scalapack-mpi-test'; fi
    for test in xddblu xddtlu xdgblu xdpbllt xdptllt; do printf '%s\t4\t%s\n' $test "$missing"; done
    if [ "$2" = openmpi ]; then printf 'hpcc\t4\t%s\n' "$(command -v hpcc > /dev/null || echo lacks hpcc)"; fi
    exit
fi

mpi=mpich
if [ -n "$OMPI_COMM_WORLD_SIZE" ]; then mpi=openmpi; fi
preload=$LD_PRELOAD
unset LD_PRELOAD
folder=$(mktemp -d)
trap 'rm -rf "$folder"' EXIT
cd "$folder" || exit 1
if [ "$1" = hpcc ]; then
    sed '6s/1000/200/' /usr/share/doc/hpcc/examples/_hpccinf.txt > hpccinf.txt # (1,000 rows take half a minute)
    LD_PRELOAD=$preload hpcc
    if [ -e hpccoutf.txt ]; then mv hpccoutf.txt results; fi
    is_well='^Success=1' is_wrong='FAILED|[1-9][0-9]* errors|with error [1-9]|[1-9][0-9]* tests completed and failed'
else
    cp /usr/share/scalapack/*.dat .
    LD_PRELOAD=$preload "$tests/$mpi-tests/$1" > results
    is_well='[1-9][0-9]* tests completed and passed' is_wrong='[1-9][0-9]* tests completed and failed'
fi
# (only rank 0 has results)
if grep -Eqs "$is_well" results && ! grep -E "$is_wrong" results; then echo "done $2"; fi
