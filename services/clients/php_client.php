<?php
// A client without encryption: PHP's driver through the proxy. Use: php php_client.php HOST:PORT OPTIONS
use MongoDB\Driver\{BulkWrite, Command, Exception\Exception, Manager, Query};

function want(bool $is, string $what): void
{
    if (!$is) {
        echo "$what isn't so\n";
        exit(1);
    }
}

function refused(callable $call, string ...$parts): void
{
    try {
        $call();
    } catch (Exception $error) {
        $said = $error->getMessage();
        foreach ($parts as $part) {
            want(str_contains($said, $part), "'$said' says $part");
        }
        want(!str_contains($said, 'SEKRET'), 'a value that is not told');
        return;
    }
    want(false, 'a refusal');
}

function write(Manager $client, callable $with): MongoDB\Driver\WriteResult
{
    $bulk = new BulkWrite();
    $with($bulk);
    return $client->executeBulkWrite('hr.people', $bulk);
}

$client = new Manager("mongodb://{$argv[1]}/?{$argv[2]}");
$find = fn(array $filter) => $client->executeQuery('hr.people', new Query($filter))->toArray();
$done = write($client, function ($bulk) {
    foreach (range(0, 6) as $i) {
        $bulk->insert(['_id' => $i, 'ssn' => 'SEKRET-1', 'salary' => "SEKRET-$i", 'n' => $i]);
    }
});
want($done->getInsertedCount() === 7, 'seven inserts');
$found = $find(['ssn' => 'SEKRET-1']);
want(array_map(fn($d) => $d->salary, $found) === array_map(fn($i) => "SEKRET-$i", range(0, 6)), 'what was found');
$new = ['$set' => ['salary' => 'SEKRET-new']];
$done = write($client, fn($bulk) => $bulk->update(['ssn' => 'SEKRET-1', 'n' => 3], $new));
want($done->getModifiedCount() === 1 && $find(['_id' => 3])[0]->salary === 'SEKRET-new', 'an update');
$done = write($client, function ($bulk) {
    $bulk->insert(['_id' => 20, 'ssn' => 'SEKRET-2']);
    $bulk->update(['_id' => 20], ['$set' => ['salary' => 'SEKRET-b']]);
    $bulk->delete(['ssn' => 'SEKRET-1', 'n' => 6], ['limit' => 1]);
});
want([$done->getInsertedCount(), $done->getModifiedCount(), $done->getDeletedCount()] === [1, 1, 1], 'a bulk write');
$put = ['$set' => ['salary' => 5]];
$done = write($client, fn($bulk) => $bulk->update(['ssn' => 'SEKRET-9'], $put, ['upsert' => true]));
want($done->getUpsertedCount() === 1 && $find(['ssn' => 'SEKRET-9'])[0]->salary === 5, 'an upsert');
$done = write($client, fn($bulk) => $bulk->delete(['ssn' => 'SEKRET-2'], ['limit' => 1]));
want($done->getDeletedCount() === 1 && $find(['ssn' => 'SEKRET-2']) === [], 'a delete');
$count = fn() => $client->executeCommand('hr', new Command(['count' => 'people', 'query' => ['ssn' => 'SEKRET-1']]));
want($count()->toArray()[0]->n === 6, 'a count');
$pipeline = [['$match' => ['ssn' => 'SEKRET-1']], ['$count' => 'n']];
$aggregate = new Command(['aggregate' => 'people', 'pipeline' => $pipeline, 'cursor' => new stdClass()]);
refused(fn() => $client->executeCommand('hr', $aggregate), 'NotACommand', 'aggregate');
if (str_contains($argv[2], 'replicaSet')) {
    $session = $client->startSession();
    $session->startTransaction();
    $bulk = new BulkWrite();
    $bulk->insert(['_id' => 30, 'ssn' => 'SEKRET-t']);
    $client->executeBulkWrite('hr.people', $bulk, ['session' => $session]);
    $found = $client->executeQuery('hr.people', new Query(['ssn' => 'SEKRET-t']), ['session' => $session])->toArray();
    want($found[0]->_id === 30, 'what a transaction found');
    $session->commitTransaction();
}
refused(fn() => $find(['ssn' => ['$gt' => 'SEKRET']]), 'OperatorOnProtected', 'filter.ssn.$gt');
$null = ['ssn' => null, 'salary' => 'SEKRET'];
refused(fn() => write($client, fn($bulk) => $bulk->insert($null)), 'TypeNotAllowed', 'documents.0.ssn');
refused(fn() => $client->executeQuery('other.people', new Query(['ssn' => 'SEKRET'])), 'Unsupported', 'other');
