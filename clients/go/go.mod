module telovamish.org/tbclient

go 1.19
