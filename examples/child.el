(start-process "c" "*scratch*" "echo" "hello")
(accept-process-output)
(accept-process-output)
