<?php
// Counts with phpredis' RedisCluster (Debian's package php-redis).
// usage: php phpredis.php PORT SECONDS

require __DIR__ . '/counting.php';

function cluster(int $port): RedisCluster
{
    while (true) {
        try {
            return new RedisCluster(null, ["127.0.0.1:$port"], 10, 10);
        } catch (RedisClusterException $error) {
            usleep(2000);
        }
    }
}

count_with('cluster', (int) $argv[1], (float) $argv[2]);
