puts ~1
