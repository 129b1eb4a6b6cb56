# A history of at least so many events of four seats and two queues in which no aspect breaks: 4,096 opening tokens
# of queue 0, then rounds of two puts into queue 1 that overlap, the gets that have got them, the later put first,
# an Empty of queue 1, and of queue 0 the get of a token while there is one, then an Empty.
BEGIN {
    for (j = 0; j < 4096; j++) print "opening 746f6b656e"
    for (i = 0; 12 * i < events; i++) {
        print "start 0 put 1 6d657373616765\nstart 1 put 1 6d657373616765\nend 0 done\nend 1 done"
        print "start 2 get 1\nstart 3 get 1"
        print "end 2 got 1 " i + 1 " 6d657373616765\nend 3 got 0 " i + 1 " 6d657373616765"
        print "start 2 get 1\nend 2 nothing\nstart 3 get 0"
        print i < 4096 ? "end 3 got o " i " 746f6b656e" : "end 3 nothing"
    }
}
