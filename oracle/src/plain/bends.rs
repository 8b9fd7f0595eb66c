//! Ways to bend the plain counter. Each is consulted at one place of it; a comparison that is sharp notices
//! every one. Four are the traps that 01 names; those marked `sheet` or `Rust` are
//! what that side does and the port does not.

macro_rules! bends {
    ($timers:ident { $($bend:ident $name:literal $what:literal,)* } $boards:ident { $($of:ident $called:literal $does:literal,)* }) => {
        #[derive(Clone, Copy, Debug, PartialEq, Eq)]
        pub enum Bend {
            $($bend,)*
            $($of,)*
        }

        impl Bend {
            /// Of the counter, the pins and the scheduler; and of the board.
            pub const $timers: &'static [Bend] = &[$(Bend::$bend,)*];
            pub const $boards: &'static [Bend] = &[$(Bend::$of,)*];

            pub fn name(self) -> &'static str {
                match self {
                    $(Bend::$bend => $name,)*
                    $(Bend::$of => $called,)*
                }
            }

            /// What the bent counter, or the bent board, does.
            pub fn what(self) -> &'static str {
                match self {
                    $(Bend::$bend => $what,)*
                    $(Bend::$of => $does,)*
                }
            }
        }
    };
}

bends! {
TIMERS {
    NoTickUnblocks "no-tick-unblocks" "trap: a sync over no tick ends the block",
    TopAfterLoad "top-after-load" "trap: TOP is taken after the compare load",
    AboveTopIsTop "above-top-is-top" "trap: a count above TOP is treated as at TOP",
    PhaseLoadsAtZero "phase-loads-at-zero" "trap: P loads at zero",
    WriteDoesNotBlock "write-does-not-block" "a TCNT write sets no block",
    BlockLasts "block-lasts" "a tick does not end the block",
    BlockHidesTop "block-hides-top" "a blocked C timer passes TOP",
    NormalOverflowAtZero "normal-overflow-at-zero" "N raises TOV when it leaves 0",
    CtcOverflowAtTop "ctc-overflow-at-top" "C raises TOV at TOP",
    CtcNeverOverflows "ctc-never-overflows" "C raises no TOV at MAX",
    FastKeepsCompares "fast-keeps-compares" "F does not load at TOP",
    FastOverflowAtMax "fast-overflow-at-max" "F raises TOV at MAX only",
    FastBottomSilent "fast-bottom-silent" "F leaves the outputs at BOTTOM",
    FastBottomSkipsAbsent "fast-bottom-skips-absent" "BOTTOM leaves the level of an absent B",
    TurnRests "turn-rests" "rising at TOP stays there for a tick",
    ZeroTopSteps "zero-top-steps" "falling at 0 goes to 1 with TOP 0 too",
    PhaseOverflowAtTop "phase-overflow-at-top" "P and Q raise TOV at TOP",
    FrequencyLoadsAtTop "frequency-loads-at-top" "Q loads at TOP",
    TopRaisesNoCapture "top-raises-no-capture" "TOP I raises no ICF",
    TurnRaisesNoCapture "turn-raises-no-capture" "TOP I raises no ICF where P and Q turn",
    CaptureTriggerWithoutFlag "capture-trigger-without-flag" "TOP I tells trigger 4 without the flag",
    ModeTurnsUp "mode-turns-up" "a control write turns the direction up",
    DownInNormal "down-in-normal" "N, C and F count down with direction minus one",
    CompareReversed "compare-reversed" "the compares act in the order C, B, A",
    CompareCSilent "compare-c-silent" "compare C raises no flag",
    WakeKeepsOrigin "wake-keeps-origin" "a wake leaves the origin",
    ResetKeepsOrigin "reset-keeps-origin" "a reset leaves the origin",
    ResetKeepsSleep "reset-keeps-sleep" "a reset does not end the sleep",
    TsmKeepsOrigin "tsm-keeps-origin" "the end of TSM leaves the origin",
    PrescalerKeepsOrigin "prescaler-keeps-origin" "a prescaler reset leaves the origin",
    PrescalerOfAll "prescaler-of-all" "a prescaler reset of another group counts too",
    PowerMovesOrigin "power-moves-origin" "the end of power reduction moves the origin",
    TsmDoesNotHold "tsm-does-not-hold" "TSM does not hold the counter",
    IdleHalts "idle-halts" "sleep mode 0 halts",
    SleepRunIgnored "sleep-run-ignored" "a sleep mode in which the timer runs halts it",
    HeldEdgeCounts "held-edge-counts" "a T edge counts asleep too",
    EdgeUncounted "edge-uncounted" "a T edge's tick leaves the odometer",
    ResetKeepsOdometer "reset-keeps-odometer" "a reset leaves the odometer",
    WriteClearsOdometer "write-clears-odometer" "a TCNT write clears the odometer",
    EdgesSwapped "edges-swapped" "the T edges of clock 6 and 7 are swapped",
    EdgeKeepsSync "edge-keeps-sync" "a T edge leaves the sync cycle",
    Timer2Divisor "timer2-divisor" "clock 3 of CS_TIMER2 divides by 64",
    ToggleOnB "toggle-on-b" "COM 1 toggles B where it toggles A",
    FourteenToggles "fourteen-toggles" "sheet: COM 1 toggles A in wide mode 14",
    TopMatchIgnored "top-match-ignored" "sheet: in F a match at TOP leaves an output of COM 2 or 3",
    FallingAsRising "falling-as-rising" "COM 2 and 3 act falling as rising",
    TopMatchRises "top-match-rises" "a match at TOP counts by the direction",
    ZeroMatchFalls "zero-match-falls" "a match at 0 counts by the direction",
    OffDrivesZero "off-drives-zero" "enable 0 is recorded with value 0",
    ResetForgetsDrives "reset-forgets-drives" "a reset clears the drives without a record",
    DriveAlwaysRecorded "drive-always-recorded" "a drive is recorded without a change",
    ForceRaisesFlag "force-raises-flag" "a force strobe raises the flag",
    ForceEverywhere "force-everywhere" "force strobes act in F, P and Q",
    ForceSyncsEverywhere "force-syncs-everywhere" "a force register of its own syncs in F, P and Q",
    ControlKeepsCompares "control-keeps-compares" "a control write into N or C does not copy the compares",
    CompareNeverBuffered "compare-never-buffered" "a compare write is active at once in every mode",
    ControlKeepsDrives "control-keeps-drives" "a control write does not reapply the drives",
    HighReadDirect "high-read-direct" "reading a high byte passes TEMP by",
    LowReadKeepsTemp "low-read-keeps-temp" "reading a low byte does not fill TEMP",
    PeekFillsTemp "peek-fills-temp" "peek fills TEMP",
    PeekKeepsSync "peek-keeps-sync" "peek reckons ahead on a copy",
    CaptureWriteGated "capture-write-gated" "sheet: an ICR write lands only where ICR is TOP",
    ControlAWhole "control-a-whole" "TCCRnA keeps all bits",
    ControlBWhole "control-b-whole" "TCCRnB keeps all bits",
    SingleKeepsForce "single-keeps-force" "the single register reads bit 7 back",
    CaptureAnyEdge "capture-any-edge" "both edges capture",
    CaptureOverTop "capture-over-top" "a capture lands where ICR is TOP",
    CaptureIgnoresRoute "capture-ignores-route" "the capture pin works while routed",
    CaptureHeld "capture-held" "no capture asleep",
    FlagRecordOnNew "flag-record-on-new" "a flag record only where a flag is newly set",
    FlagWriteRecorded "flag-write-recorded" "a flag write that changes a line writes a record",
    MaskOwnBits "mask-own-bits" "Rust: TIMSK keeps the timer's own bits",
    ResetClearsFlags "reset-clears-flags" "a reset clears TIFR",
    TriggersReversed "triggers-reversed" "triggers go in the order 4 to 1",
    LinesIgnoreMask "lines-ignore-mask" "a line is high with its flag alone",
    PauseNeedsWhole "pause-needs-whole" "an advance pauses with less than 110 bytes left",
    PauseAtTick "pause-at-tick" "a paused advance stands at the stopped tick",
    PauseAcceptsCycle "pause-accepts-cycle" "a paused advance accepts the wanted cycle",
    AdvanceStopsShort "advance-stops-short" "an advance leaves the tick at its own cycle",
    AreaTouched "area-touched" "a byte after the records is changed",
    LastCycleRefused "last-cycle-refused" "number 2 from 2^62 - 1 on",
    ResetLowersLatest "reset-lowers-latest" "a reset may go back in time",
    NextKeepsLatest "next-keeps-latest" "a next event call is not accepted as the latest",
    AddressRefusedLate "address-refused-late" "number 4 is tested after 5 and 6",
    SleepSevenRefused "sleep-seven-refused" "number 5 for sleep mode 7",
    EventAllowed "event-allowed" "number 6 only past the next event",
    HighByteRefused "high-byte-refused" "number 6 for a high byte too",
    FlagCallsAllowed "flag-calls-allowed" "number 6 not for flag calls",
    SleepTsmAllowed "sleep-tsm-allowed" "number 7 not for a TSM change",
    FullAreaRefused "full-area-refused" "number 8 where the records just fit",
    RefusedKeepsWork "refused-keeps-work" "number 8 takes back nothing",
    EventForgetsC "event-forgets-c" "the next event passes compare C over",
    BlockedEventSkipped "blocked-event-skipped" "the next event passes a blocked compare over",
    BlockedMatchAnnounced "blocked-match-announced" "the next event's flags name a blocked match",
    FlagsAsItStands "flags-as-it-stands" "the next event's flags are those of the count as it stands",
    ShiftUnsigned "shift-unsigned" "a shift has no sign",
    FarEdgesShift "far-edges-shift" "number 18 from 32768 ticks on",
    SecondEdgeFirst "second-edge-first" "a shift tests the second cycle first",
    EdgeBeforeTick "edge-before-tick" "a shift leaves the tick at its later cycle out",
    LastPinRefused "last-pin-refused" "number 1 for pin 247",
    ForceMustDiffer "force-must-differ" "number 1 where force equals a control",
    FlagsMayMeet "flags-may-meet" "two units may share a flag",
    HighBytesMayMeet "high-bytes-may-meet" "high bytes may share an address",
    AnalogStrict "analog-strict" "a pin reads 1 only above 0.6 Vcc",
    PullDownFirst "pull-down-first" "the pull-down wins over the pull-up",
    ReservedDrives "reserved-drives" "a reserved pin is driven",
    MinusZeroLost "minus-zero-lost" "minus zero becomes zero",
    VoltsAlwaysTested "volts-always-tested" "number 9 for volts that no analog drive has",
    TieTakesLast "tie-takes-last" "equal cycles pop the last place",
    RemoveKeepsOrder "remove-keeps-order" "a removed event's place closes up",
    KnownKeyRefused "known-key-refused" "number 11 for a key that is held",
}
BOARDS {
    TsmToldAgain "tsm-told-again" "a GTCCR write tells TSM where bit 7 stays too",
    PrescalersSwapped "prescalers-swapped" "GTCCR's bit 0 resets Timer2's prescaler, bit 1 that of the others",
    ResetBitsStay "reset-bits-stay" "GTCCR reads its reset bits back without TSM",
    GtccrWhole "gtccr-whole" "GTCCR keeps all bits",
    GtccrReadHasCycle "gtccr-read-has-cycle" "number 2 for a GTCCR read",
    IdleWritePasses "idle-write-passes" "a GTCCR write that changes nothing reaches no timer",
    ResetClearsTsm "reset-clears-tsm" "a reset of one timer clears GTCCR",
    SixteenIsFour "sixteen-is-four" "number 4 for an address that is nobody's",
    SixteenComesLast "sixteen-comes-last" "number 16 is tested after 2",
    FirstNumber "first-number" "the first timer that refuses tells the number",
    HighestNumber "highest-number" "the highest number is told",
    RefusedReachesOthers "refused-reaches-others" "a refusal changes the timers that accept",
    Timer2Unreached "timer2-unreached" "sleep, wake, power reduction and GTCCR writes pass Timer2 by",
    Timer2SleepsToo "timer2-sleeps-too" "power-save and extended standby halt Timer2",
    FlagsOfTimer0 "flags-of-timer0" "the flag calls by id reach Timer0",
    PrrIsOneBit "prr-is-one-bit" "a PRR write holds all three",
    EventOutlivesStop "event-outlives-stop" "the scheduler keeps the event of a timer that stops",
}
}

impl Bend {
    /// Every bend.
    pub fn all() -> impl Iterator<Item = Bend> {
        Self::TIMERS.iter().chain(Self::BOARDS).copied()
    }

    pub fn named(name: &str) -> Option<Bend> {
        Self::all().find(|b| b.name() == name)
    }
}
