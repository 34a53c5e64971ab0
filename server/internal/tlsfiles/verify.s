// This file lets verify.go declare a function without a body.
