//! The timers of the sheets: data addresses, TIFR bits, pins of the package, PRR1:PRR0, and the sleep modes
//! (SM2:0) in which a timer on the CPU clock keeps counting, which is Timer2 alone, in power-save and
//! extended standby.

const PRESETS: [(&str, &str); 10] = [
    ("m328p.timer0", "id=0 wide=0 layout=split tccra=44 tccrb=45 foc=45 foca=80 focb=40 tcnt=46 ocra=47 ocrb=48 icr=- tov=1 ocfa=2 ocfb=4 icf=0 pina=12 pinb=11 c=- icp=- t=6 clock=sync group=1 prr=20 sleeprun=0"),
    ("m328p.timer1", "id=1 wide=1 layout=split tccra=80 tccrb=81 foc=82 foca=80 focb=40 tcnt=84 ocra=88 ocrb=8A icr=86 tov=1 ocfa=2 ocfb=4 icf=20 pina=15 pinb=16 c=- icp=14 t=11 clock=sync group=1 prr=8 sleeprun=0"),
    ("m328p.timer2", "id=2 wide=0 layout=split tccra=B0 tccrb=B1 foc=B1 foca=80 focb=40 tcnt=B2 ocra=B3 ocrb=B4 icr=- tov=1 ocfa=2 ocfb=4 icf=0 pina=17 pinb=5 c=- icp=- t=- clock=t2 group=2 prr=40 sleeprun=88"),
    ("m2560.timer1", "id=1 wide=1 layout=split tccra=80 tccrb=81 foc=82 foca=80 focb=40 tcnt=84 ocra=88 ocrb=8A icr=86 tov=1 ocfa=2 ocfb=4 icf=20 pina=24 pinb=25 c=8C:8:26:20 icp=47 t=49 clock=sync group=1 prr=8 sleeprun=0"),
    ("m2560.timer3", "id=3 wide=1 layout=split tccra=90 tccrb=91 foc=92 foca=80 focb=40 tcnt=94 ocra=98 ocrb=9A icr=96 tov=1 ocfa=2 ocfb=4 icf=20 pina=5 pinb=6 c=9C:8:7:20 icp=9 t=8 clock=sync group=1 prr=800 sleeprun=0"),
    ("m2560.timer4", "id=4 wide=1 layout=split tccra=A0 tccrb=A1 foc=A2 foca=80 focb=40 tcnt=A4 ocra=A8 ocrb=AA icr=A6 tov=1 ocfa=2 ocfb=4 icf=20 pina=15 pinb=16 c=AC:8:17:20 icp=35 t=27 clock=sync group=1 prr=1000 sleeprun=0"),
    ("m2560.timer5", "id=5 wide=1 layout=split tccra=120 tccrb=121 foc=122 foca=80 focb=40 tcnt=124 ocra=128 ocrb=12A icr=126 tov=1 ocfa=2 ocfb=4 icf=20 pina=38 pinb=39 c=12C:8:40:20 icp=36 t=37 clock=sync group=1 prr=2000 sleeprun=0"),
    ("m8.timer0", "id=0 wide=0 layout=single0 tccra=53 tccrb=53 foc=53 foca=0 focb=0 tcnt=52 ocra=- ocrb=- icr=- tov=1 ocfa=0 ocfb=0 icf=0 pina=- pinb=- c=- icp=- t=6 clock=sync group=1 prr=0 sleeprun=0"),
    ("m16.timer0", "id=0 wide=0 layout=single tccra=53 tccrb=53 foc=53 foca=80 focb=0 tcnt=52 ocra=5C ocrb=- icr=- tov=1 ocfa=2 ocfb=0 icf=0 pina=4 pinb=- c=- icp=- t=1 clock=sync group=1 prr=0 sleeprun=0"),
    ("m16.timer1", "id=1 wide=1 layout=split tccra=4F tccrb=4E foc=4F foca=8 focb=4 tcnt=4C ocra=4A ocrb=48 icr=46 tov=4 ocfa=10 ocfb=8 icf=20 pina=19 pinb=18 c=- icp=20 t=2 clock=sync group=1 prr=0 sleeprun=0"),
];

/// The keys of a preset as a `config` line has them.
pub fn keys(name: &str) -> Option<&'static str> {
    PRESETS.iter().find(|p| p.0 == name).map(|p| p.1)
}

pub fn names() -> impl Iterator<Item = &'static str> {
    PRESETS.iter().map(|p| p.0)
}
