package replica

// Bug is a wrong core, which the simulator has to find. Only tests with the tag `planted` have any.
type Bug int

// All bugs of the core.
const (
	NoBug                      Bug = iota
	RenamesARetry                  // an append is tried again under a new name
	AnswersThePairBefore           // a reply goes to another pair of the entry
	KeepsAPlace                    // a place is never freed
	TakesTwice                     // an entry that is there twice is taken twice
	AnswersBeforeTheLog            // an entry is taken before the log has it
	TakesAChangedEntry             // an entry that a disk has changed is taken
	ForgetsAtTheEnd                // what waits stays when a replica ends
	GoesByItsOwnClock              // a replica alone goes by its own clock
	TakesAmidReading               // an own entry is taken while one before it is read again
	TakesLate                      // an entry is passed over when it was read late
	TrustsAJump                    // moments follow a clock that is set ahead
	KeepsAnOldReader               // what an ended reading brings is taken
	SkipsAGap                      // a number that is missing is no fault
	ComparesNothing                // what writers had is not compared
	FeedsNothingLate               // what the server had no room for is not given later
	AnswersWhenTheServerIsLost     // requests are told of an end that is none
	ReadsATrimmedLog               // a log that begins after the copy is read
	GoesByAnAheadClock             // a clock that is ahead of others is no fault
	AnswersNoHello                 // no clock is sent to who asks
	SurveysWhatWasTrimmed          // nodes are asked for entries that were trimmed
	FeedsFromTheEnd                // a restarted server is given what follows, not all
	KeepsTheCancelled              // a cancelled request is appended and answered
	LooksNowhereElse               // an entry that does not fit is no entry at any node
	ReadsAgain                     // an entry that comes once more is not passed over
)
