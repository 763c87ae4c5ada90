"""A client without encryption: pymongo through the proxy. Use: pymongo_client.py HOST:PORT OPTIONS

It writes and reads protected fields of hr.people, each with SEKRET in it, and ends with 0 where all comes out as of a
server with no proxy before it, and the refused is refused by the field's name.
"""
import sys

import pymongo
from pymongo.errors import BulkWriteError, OperationFailure


def refused(*parts):
    """A block that has to be refused, by an error that says these."""
    class Refused:
        def __enter__(self):
            return self

        def __exit__(self, kind, error, _trace):
            said = str(error)
            assert isinstance(error, OperationFailure) and not isinstance(error, BulkWriteError), repr(error)
            assert error.code == 8000 and all(part in said for part in parts) and "SEKRET" not in said, said
            return True
    return Refused()


def write_and_read(people):
    """Inserts, finds over three batches, updates, bulk writes, upserts, deletes: seven are left, five by one value."""
    people.insert_many([{"_id": i, "ssn": "SEKRET-1", "salary": f"SEKRET-{i}", "n": i} for i in range(7)])
    found = list(people.find({"ssn": "SEKRET-1"}))
    wanted = [(i, "SEKRET-1", f"SEKRET-{i}") for i in range(7)]
    assert [(d["_id"], d["ssn"], d["salary"]) for d in found] == wanted, found
    changed = people.update_one({"ssn": "SEKRET-1", "n": 3}, {"$set": {"salary": "SEKRET-new"}})
    assert changed.modified_count == 1 and people.find_one({"_id": 3})["salary"] == "SEKRET-new"
    done = people.bulk_write([
        pymongo.InsertOne({"_id": 20, "ssn": "SEKRET-2"}),
        pymongo.UpdateOne({"_id": 20}, {"$set": {"salary": "SEKRET-b"}}),
        pymongo.ReplaceOne({"_id": 5}, {"ssn": "SEKRET-5", "salary": "SEKRET-r"}),
        pymongo.DeleteOne({"ssn": "SEKRET-1", "n": 6})])
    assert (done.inserted_count, done.modified_count, done.deleted_count) == (1, 2, 1), done.bulk_api_result
    assert people.find_one({"ssn": "SEKRET-5"})["salary"] == "SEKRET-r"
    put = people.update_one({"ssn": "SEKRET-9"}, {"$set": {"salary": 5}}, upsert=True)
    assert put.upserted_id is not None and people.find_one({"ssn": "SEKRET-9"})["salary"] == 5
    assert people.delete_one({"ssn": "SEKRET-2"}).deleted_count == 1 and people.find_one({"ssn": "SEKRET-2"}) is None


def count(client, people):
    """Counts by the command of this name, which is sealed; what counts by aggregate is refused."""
    assert client.hr.command("count", "people", query={"ssn": "SEKRET-1"})["n"] == 5
    assert people.estimated_document_count() == 7
    with refused("NotACommand", "aggregate"):
        people.count_documents({"ssn": "SEKRET-1"})


def use_a_transaction(client, people):
    """Writes and reads within one."""
    with client.start_session() as session, session.start_transaction():
        people.insert_one({"_id": 30, "ssn": "SEKRET-t"}, session=session)
        assert people.find_one({"ssn": "SEKRET-t"}, session=session)["_id"] == 30


def be_refused(client, people):
    """What the library refuses, and what goes where no rules are."""
    with refused("OperatorOnProtected", "filter.ssn.$gt"):
        people.find_one({"ssn": {"$gt": "SEKRET"}})
    with refused("RandomCompared", "filter.salary"):
        people.find_one({"salary": "SEKRET"})
    with refused("TypeNotAllowed", "documents.1.ssn"):
        people.insert_many([{"ssn": "SEKRET"}, {"ssn": None, "salary": "SEKRET"}])
    with refused("NotACommand", "aggregate"):
        list(people.aggregate([{"$match": {"ssn": "SEKRET"}}]))
    with refused("Unsupported", "other"):
        client.other.people.insert_one({"ssn": "SEKRET"})
    with refused("Unsupported", "pepole"):
        client.hr.pepole.insert_one({"ssn": "SEKRET"})


def write_without_a_reply(client):
    """Writes that nothing acknowledges: one that is taken, one that is refused, of which nothing is stored."""
    # pymongo 3 asks no reply by moreToCome
    blind = client.hr.get_collection("people", write_concern=pymongo.WriteConcern(w=0))
    blind.insert_one({"_id": 40, "ssn": "SEKRET-w"})
    blind.insert_one({"_id": 41, "ssn": None, "salary": "SEKRET"})
    blind.delete_one({"ssn": {"$gt": "SEKRET"}})
    found = [d for d in client.hr.people.find() if d["_id"] in (40, 41)]
    assert [d["_id"] for d in found] == [40] and found[0]["ssn"] == "SEKRET-w", found


def main(address, options):
    with pymongo.MongoClient(f"mongodb://{address}/?{options}", serverSelectionTimeoutMS=5000) as client:
        people = client.hr.people
        write_and_read(people)
        count(client, people)
        be_refused(client, people)
        write_without_a_reply(client)
        if "replicaSet" in options:
            use_a_transaction(client, people)
            assert client.nodes == {tuple([address.split(":")[0], int(address.split(":")[1])])}, client.nodes


main(*sys.argv[1:])
