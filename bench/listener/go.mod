module telovamish.org/bench/listener

go 1.19
