//! Events, "three to an event: kind, application, slot" (01, The station).

use crate::model::packet::Application;

#[derive(Clone, Copy, Debug, PartialEq, Eq)]
pub enum Event {
    CounterGap,
    PointerDiffers,
    BadHeader,
    WrongCrc(Application),
    NoFile(Application),
    Abandoned(Application, u16),
    BadStart(Application),
    NoSlot(Application),
    NoRoom(Application),
    Opened(Application, u16),
    Continued(Application, u16),
    Completed(Application, u16),
    Reserved(Application),
}

impl Event {
    /// "Events 1, 2 and 3 carry 0 and 0; events 4, 5, 7, 8, 9 and 13 carry the application and
    /// 0; events 6 and 10 to 12 carry both."
    pub fn numbers(self) -> [u16; 3] {
        match self {
            Event::CounterGap => [1, 0, 0],
            Event::PointerDiffers => [2, 0, 0],
            Event::BadHeader => [3, 0, 0],
            Event::WrongCrc(application) => [4, application.0, 0],
            Event::NoFile(application) => [5, application.0, 0],
            Event::Abandoned(application, slot) => [6, application.0, slot],
            Event::BadStart(application) => [7, application.0, 0],
            Event::NoSlot(application) => [8, application.0, 0],
            Event::NoRoom(application) => [9, application.0, 0],
            Event::Opened(application, slot) => [10, application.0, slot],
            Event::Continued(application, slot) => [11, application.0, slot],
            Event::Completed(application, slot) => [12, application.0, slot],
            Event::Reserved(application) => [13, application.0, 0],
        }
    }
}
