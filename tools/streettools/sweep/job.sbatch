#!/bin/sh
# The batch job of `./arterial sweep --slurm`: a scheduler of Dask in the first task, a worker with one thread in each
# other. `sweep` gives the number of tasks, the file of the output, SWEEP_INTERFACE, the network interface at which they
# listen, and SWEEP_FOLDER, which all nodes share: it has the certificate of the cluster, and there the scheduler says
# its address. Who doesn't have the certificate's key is refused. A copy with the account, the partition and the time of
# a site goes by --template.
#SBATCH --job-name=arterial-sweep
#SBATCH --cpus-per-task=1
#SBATCH --mem-per-cpu=1G
#SBATCH --time=12:00:00
umask 077
file=$SWEEP_FOLDER/scheduler.json
export DASK_DISTRIBUTED__COMM__REQUIRE_ENCRYPTION=True
export DASK_DISTRIBUTED__COMM__TLS__CA_FILE="$SWEEP_FOLDER/certificate.pem"
for role in SCHEDULER WORKER CLIENT; do
    export "DASK_DISTRIBUTED__COMM__TLS__${role}__CERT=$SWEEP_FOLDER/certificate.pem"
    export "DASK_DISTRIBUTED__COMM__TLS__${role}__KEY=$SWEEP_FOLDER/key.pem"
done
set -- --scheduler-file "$file" --interface "$SWEEP_INTERFACE" --protocol tls --no-dashboard \
    --dashboard-address 127.0.0.1:0
dask-scheduler "$@" --port 0 &
scheduler=$!
trap 'kill $scheduler 2>/dev/null' EXIT
until [ -f "$file" ]; do
    kill -0 $scheduler 2>/dev/null || exit 1
    sleep 1
done
# The scheduler takes no task of its own, so the workers have all tasks but one. Each has a folder of its own.
# shellcheck disable=SC2016
srun --overlap --ntasks=$((SLURM_NTASKS - 1)) sh -c '
    folder=$(mktemp -d) || exit
    trap "rm -rf \"$folder\"" EXIT
    dask-worker "$@" --nthreads 1 --local-directory "$folder"' worker "$@"
