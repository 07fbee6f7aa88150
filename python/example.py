from vilgoued import Bucket, WrongLastRevision

with Bucket("settings", history=5) as bucket:
    bucket["app.port"] = b"80"
    watch = bucket.watch("app.>")
    for entry in watch:
        print("that was all" if entry.marker else f"{entry.key} {entry.op} at {entry.revision}: {entry.value!r}")
    try:
        bucket.update("app.port", b"8080", last=7)
    except WrongLastRevision as refused:
        bucket.update("app.port", b"8080", last=refused.last)
    with bucket.snapshot() as before:
        del bucket["app.port"]
        print(before["app.port"], bucket.get("app.port"))
    for entry in watch:
        if not entry.marker:
            print(entry.key, entry.op, entry.value)
