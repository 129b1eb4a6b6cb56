# A log-like file of so many lines of about 40 bytes.
BEGIN {
    srand(1)
    for (i = 0; i < lines; i++) {
        n = int(rand() * 1000000)
        kind = i % 8
        if (kind == 0) print "get /index.html?id=" n " 200 " n % 977 " bytes in 12 ms to 10.0.3." n % 256
        else if (kind == 1) print "err disk sda1 is " n % 100 "% full, " n " blocks of 4096 bytes left"
        else if (kind == 2) print "put /upload/" n "/part-" n % 7 " 201 created " n
        else if (kind == 3) print "warn queue depth " n % 4096 " of 4096 at " n " in shard " n % 16
        else if (kind == 4) print "info worker " n % 64 " idle for " n " ms"
        else if (kind == 5) print "get /a.css?v=" n " 404 not found"
        else if (kind == 6) print "auth user" n " logged in from 10.0." n % 256 ".7"
        else print (n % 10 ? "tick " n : "")
    }
}
