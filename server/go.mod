module telovamish.org/server

go 1.19
