<?php
// Counts with Predis (Debian's package php-predis).
// usage: php predis.php PORT SECONDS

require __DIR__ . '/counting.php';
require 'Predis/Autoloader.php';
Predis\Autoloader::register();

function cluster(int $port): Predis\Client
{
    while (true) {
        try {
            $client = new Predis\Client(["tcp://127.0.0.1:$port"], ['cluster' => 'redis']);
            $client->get('count:0');
            return $client;
        } catch (Predis\Connection\ConnectionException | Predis\ClientException $error) {
            usleep(2000);
        }
    }
}

count_with('cluster', (int) $argv[1], (float) $argv[2]);
