<?php
// Counts with a client of PHP: 1 is added to each of 200 keys, round after round, for so many seconds. The last line
// tells how many rounds there were, how many replies were wrong, and what the keys hold at the end, all together.

function count_with(callable $cluster, int $port, float $seconds): void
{
    $keys = [];
    for ($number = 0; $number < 100; $number++) {
        $keys[] = "count:$number";
        $keys[] = "{counts}:$number";
    }
    echo "ready\n";
    $client = $cluster($port);
    $rounds = $wrong = $held = 0;
    $end = microtime(true) + $seconds;
    while (microtime(true) < $end) {
        $rounds++;
        foreach ($keys as $key) {
            $wrong += (int) ($client->incr($key) !== $rounds);
        }
    }
    foreach ($keys as $key) {
        $held += (int) $client->get($key);
    }
    echo "$rounds rounds, $wrong wrong, $held held\n";
}
