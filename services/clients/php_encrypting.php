<?php
// A client with encryption of its own: PHP's driver, which asks a service what to seal.
// Use: php php_encrypting.php HOST:PORT SERVICE SCHEMAS
//
// SERVICE is the URI of one. SCHEMAS is a file with a schema map, or - for the server's own schemas. Words behind these
// aren't read.
use MongoDB\BSON\Binary;
use MongoDB\Driver\{BulkWrite, Command, Manager, Query};

function want(bool $is, string $what): void
{
    if (!$is) {
        echo "$what isn't so\n";
        exit(1);
    }
}

function refused(callable $call, string ...$parts): void
{
    try {
        $call();
    } catch (Exception $error) {
        $said = $error->getMessage();
        foreach ($parts as $part) {
            want(str_contains($said, $part), "'$said' says $part");
        }
        want(!str_contains($said, 'SEKRET'), 'a value that is not told');
        return;
    }
    want(false, 'a refusal');
}

function write(Manager $client, string $collection, callable $with): MongoDB\Driver\WriteResult
{
    $bulk = new BulkWrite();
    $with($bulk);
    return $client->executeBulkWrite("hr.$collection", $bulk);
}

[, $server, $service, $schemas] = $argv;
$master = implode('', array_map('chr', range(0, 95)));
$encryption = [
    'keyVaultNamespace' => 'encryption.__keyVault',
    'kmsProviders' => ['local' => ['key' => new Binary($master, 0)]],
    'extraOptions' => ['mongocryptdURI' => $service, 'mongocryptdBypassSpawn' => true],
];
if ($schemas !== '-') {
    $encryption['schemaMap'] = MongoDB\BSON\toPHP(file_get_contents($schemas));
}
$client = new Manager("mongodb://$server/", [], ['autoEncryption' => $encryption]);
$find = fn(array $filter) => $client->executeQuery('hr.people', new Query($filter))->toArray();
$done = write($client, 'people', function ($bulk) {
    foreach (range(0, 6) as $i) {
        $bulk->insert(['_id' => $i, 'ssn' => 'SEKRET-1', 'salary' => "SEKRET-$i", 'n' => $i]);
    }
});
want($done->getInsertedCount() === 7, 'seven inserts');
$found = $find(['ssn' => 'SEKRET-1']);
want(array_map(fn($d) => $d->salary, $found) === array_map(fn($i) => "SEKRET-$i", range(0, 6)), 'what was found');
$new = ['$set' => ['salary' => 'SEKRET-new']];
$done = write($client, 'people', fn($bulk) => $bulk->update(['ssn' => 'SEKRET-1', 'n' => 3], $new));
want($done->getModifiedCount() === 1 && $find(['_id' => 3])[0]->salary === 'SEKRET-new', 'an update');
$done = write($client, 'people', function ($bulk) {
    $bulk->insert(['_id' => 20, 'ssn' => 'SEKRET-2']);
    $bulk->update(['_id' => 20], ['$set' => ['salary' => 'SEKRET-b']]);
    $bulk->delete(['ssn' => 'SEKRET-1', 'n' => 6], ['limit' => 1]);
});
want([$done->getInsertedCount(), $done->getModifiedCount(), $done->getDeletedCount()] === [1, 1, 1], 'a bulk write');
$done = write($client, 'people', fn($bulk) => $bulk->delete(['ssn' => 'SEKRET-2'], ['limit' => 1]));
want($done->getDeletedCount() === 1 && $find(['ssn' => 'SEKRET-2']) === [], 'a delete');
refused(fn() => $find(['ssn' => ['$gt' => 'SEKRET']]), 'OperatorOnProtected', 'filter.ssn.$gt');
$null = ['ssn' => null, 'salary' => 'SEKRET'];
refused(fn() => write($client, 'people', fn($bulk) => $bulk->insert($null)), 'TypeNotAllowed', 'documents.0.ssn');
$done = write($client, 'free', fn($bulk) => $bulk->insert(['a' => 'b']));
want($done->getInsertedCount() === 1, 'an insert without rules');
$count = fn() => $client->executeCommand('hr', new Command(['count' => 'people', 'query' => ['ssn' => 'SEKRET-1']]));
want($count()->toArray()[0]->n === 6, 'a count');
