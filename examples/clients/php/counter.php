<?php
// Several workers, each a process, add to one counter, each addition once: counter.php PORT COUNTER WORKERS TIMES.
declare(strict_types=1);
require __DIR__ . '/client.php';

[, $port, $counter, $workers, $times] = $argv;
$pipes = [];
for ($worker = 0; $worker < (int) $workers; $worker++) {
    $pipe = stream_socket_pair(STREAM_PF_UNIX, STREAM_SOCK_STREAM, 0);
    if (pcntl_fork() === 0) {
        $store = new Store((int) $port);
        $added = $tries = 0;
        for ($turn = 0; $turn < (int) $times; $turn++) {
            $added += (int) $store->once("$counter.$worker.$turn", function (Store $store) use ($counter, &$tries) {
                $tries++;
                $store->ask('SET', $counter, (string) ((int) $store->ask('GET', $counter) + 1));
            });
        }
        fwrite($pipe[1], "$added $tries\n");
        exit(0);
    }
    fclose($pipe[1]);
    $pipes[] = $pipe[0];
}
[$added, $tries] = [0, 0];
foreach ($pipes as $pipe) {
    [$more, $turns] = sscanf(fgets($pipe), '%d %d');
    [$added, $tries] = [$added + $more, $tries + $turns];
}
$count = (new Store((int) $port))->transact(fn (Store $store) => $store->ask('GET', $counter));
echo "added $added, counter $count\ntries $tries\n";
