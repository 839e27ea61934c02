//! The library's own surface, numbers in and numbers out, as `include/klumdray.h` documents it.
//!
//! Every number may be given here, of 32 bits as in C, in its range or not. The calls of the other
//! modules say the same with types.

/// The numbers that a writer is given; one outside its range draws 14.
#[derive(Clone, Copy, Debug, PartialEq, Eq)]
pub struct Numbers {
    /// 0 standard, 1 extended.
    pub extended: u32,
    /// The repeat flag: 1 first sending, 0 repeated.
    pub first_sending: u32,
    /// The two priority bits, 0 to 3.
    pub priority: u32,
    /// The source address.
    pub source: u32,
    /// AT: 1 group, 0 individual.
    pub group: u32,
    /// The destination address.
    pub destination: u32,
    /// The hop count, 0 to 7.
    pub count: u32,
}

/// The octets and the number that set a coupler for one step; what is outside its range is refused.
#[derive(Clone, Copy, Debug, PartialEq, Eq)]
pub struct Setting<'a> {
    /// A block of 10 octets: the coupler's own line, 01h to FFh, four codes for main to sub, four
    /// for sub to main, the medium of the main side, 0 TP1, 1 IP.
    pub settings: &'a [u8],
    /// The filter table: 8,192 octets, or none where no group code is 1.
    pub table: &'a [u8],
    /// The receiving side: 0 main, 1 sub.
    pub side: u32,
}

/// The numbers of a query; one outside its range is refused.
#[derive(Clone, Copy, Debug, PartialEq, Eq)]
pub struct Query {
    /// The starting line.
    pub start: u32,
    /// 0 individual, 1 group.
    pub kind: u32,
    /// The destination address.
    pub destination: u32,
    /// The hop count on the starting line, 0 to 7.
    pub count: u32,
}

/// A site, well-formed or not: its couplers, and the two stores that their filter tables lie in.
#[derive(Clone, Copy, Debug, PartialEq, Eq)]
pub struct Site<'a> {
    /// A record for each coupler, 12 octets: mark 43h 50h, line, four codes main to sub, four codes
    /// sub to main (as in [`crate::coupler::Settings`]), table number. Numbers 0 to 127 count in the
    /// project store, 128 to 254 in the site's own store from its start, FFh is none and allowed
    /// where no group code of that record is 1.
    pub records: &'a [u8],
    /// The project store: at most 128 filter tables of 8,192 octets.
    pub project: &'a [u8],
    /// The site's own store: at most 127 filter tables of 8,192 octets.
    pub own: &'a [u8],
}

// Line by line as the header declares them: tools/make-surface writes them.
#[rustfmt::skip]
extern "C" {
    fn klumdray_check_octet(octets: *const u8, n: u64) -> u32;
    fn klumdray_tp1_read(octets: *const u8, n: u64) -> u64;
    fn klumdray_tp1_write(extended: u32, first_sending: u32, priority: u32,
                          source: u32, group: u32, destination: u32, count: u32,
                          payload: *const u8, n: u64, room: *mut u8, m: u64) -> u64;
    fn klumdray_cemi_read(octets: *const u8, n: u64) -> u64;
    fn klumdray_cemi_write(code: u32, error_mark: u32, extended: u32,
                           first_sending: u32, priority: u32, source: u32,
                           group: u32, destination: u32, count: u32,
                           payload: *const u8, n: u64, room: *mut u8, m: u64) -> u64;
    fn klumdray_routing_read(octets: *const u8, n: u64) -> u64;
    fn klumdray_routing_write(code: u32, error_mark: u32, extended: u32,
                              first_sending: u32, priority: u32, source: u32,
                              group: u32, destination: u32, count: u32,
                              payload: *const u8, n: u64, room: *mut u8, m: u64) -> u64;
    fn klumdray_step(settings: *const u8, settings_length: u64, table: *const u8,
                     table_length: u64, side: u32, memory: *mut u8,
                     memory_length: u64, octets: *const u8, length: u64,
                     room: *mut u8, room_length: u64) -> u64;
    fn klumdray_trace(start: u32, kind: u32, destination: u32, count: u32,
                      site: *const u8, site_length: u64, project: *const u8,
                      project_length: u64, own: *const u8, own_length: u64,
                      room: *mut u8, room_length: u64) -> u64;
    fn klumdray_why(start: u32, kind: u32, destination: u32, count: u32,
                    site: *const u8, site_length: u64, project: *const u8,
                    project_length: u64, own: *const u8, own_length: u64,
                    line: u32) -> u32;
    fn klumdray_tunnelling_request_read(octets: *const u8, n: u64) -> u64;
    fn klumdray_tunnelling_request_write(channel: u32, counter: u32, code: u32,
                                         error_mark: u32, extended: u32,
                                         first_sending: u32, priority: u32,
                                         source: u32, group: u32, destination: u32,
                                         count: u32, payload: *const u8, n: u64,
                                         room: *mut u8, m: u64) -> u64;
    fn klumdray_tunnelling_ack_read(octets: *const u8, n: u64) -> u32;
    fn klumdray_tunnelling_ack_write(channel: u32, counter: u32, status: u32,
                                     room: *mut u8, m: u64) -> u64;
    fn klumdray_tunnelling_receive(channels: *mut u8, channels_length: u64,
                                   octets: *const u8, length: u64, room: *mut u8,
                                   room_length: u64) -> u64;
    fn klumdray_tunnelling_send(channels: *const u8, channels_length: u64,
                                channel: u32, code: u32, error_mark: u32,
                                extended: u32, first_sending: u32, priority: u32,
                                source: u32, group: u32, destination: u32,
                                count: u32, payload: *const u8, n: u64,
                                room: *mut u8, m: u64) -> u64;
    fn klumdray_tunnelling_confirm(channels: *mut u8, channels_length: u64,
                                   octets: *const u8, length: u64) -> u32;
    fn klumdray_float_value(code: u32) -> u64;
    fn klumdray_float_read(octets: *const u8, length: u64) -> u64;
    fn klumdray_float_write(hundredths: i64) -> u32;
    fn klumdray_increment(payload: *const u8, length: u64) -> u32;
    fn klumdray_total_add(total: *mut u8, total_length: u64, code: u32) -> u32;
    fn klumdray_take(total: *mut u8, total_length: u64, memory: *mut u8,
                     memory_length: u64, group: u32, octets: *const u8,
                     length: u64) -> u32;
}

/// Calls a writer of the library; what only messages and requests have comes first.
macro_rules! call_writer {
    ($writer:ident($($before:ident),*), $numbers:ident, $payload:ident, $room:ident) => {
        // SAFETY: the library reads the payload, and a table of channels where one is lent, and
        // writes the room within the lengths lent, which Rust's borrows keep apart, and keeps none
        // of them.
        unsafe {
            $writer(
                $($before,)*
                $numbers.extended,
                $numbers.first_sending,
                $numbers.priority,
                $numbers.source,
                $numbers.group,
                $numbers.destination,
                $numbers.count,
                $payload.as_ptr(),
                $payload.len() as u64,
                $room.as_mut_ptr(),
                $room.len() as u64,
            )
        }
    };
}

/// Calls the library with a query and a site; what each call has of its own comes last.
macro_rules! call_tracer {
    ($call:ident, $query:ident, $site:ident, $($last:ident),+) => {
        // SAFETY: the library reads records and stores, and writes a room where one is lent, within
        // the lengths lent, which Rust's borrows keep apart, and keeps none of them.
        unsafe {
            $call(
                $query.start,
                $query.kind,
                $query.destination,
                $query.count,
                $site.records.as_ptr(),
                $site.records.len() as u64,
                $site.project.as_ptr(),
                $site.project.len() as u64,
                $site.own.as_ptr(),
                $site.own.len() as u64,
                $($last),+
            )
        }
    };
}

/// The check octet of the octets given, as a number from 0 to 255.
///
/// ```
/// assert_eq!(klumdray::raw::check_octet(&[0x0f]), 0xf0);
/// ```
#[inline]
pub fn check_octet(octets: &[u8]) -> u32 {
    // SAFETY: the library reads the n octets lent and keeps nothing.
    unsafe { klumdray_check_octet(octets.as_ptr(), octets.len() as u64) }
}

/// A TP1 reader's answer as one number: bits 0 to 7 are the refusal's number, 0 if accepted.
///
/// ```
/// assert_eq!(klumdray::raw::tp1_read(&[]), 1);
/// assert_eq!(klumdray::raw::tp1_read(&[0xcc]), 2);
/// ```
#[inline]
pub fn tp1_read(octets: &[u8]) -> u64 {
    // SAFETY: the library reads the n octets lent and keeps nothing.
    unsafe { klumdray_tp1_read(octets.as_ptr(), octets.len() as u64) }
}

/// A TP1 writer's answer: bits 0 to 7 the number, bits 8 to 63 the octets written.
///
/// ```
/// let numbers = klumdray::raw::Numbers {
///     extended: 0, first_sending: 1, priority: 3,
///     source: 0, group: 1, destination: 0x1234, count: 3,
/// };
/// let mut room = [0; 8];
/// assert_eq!(klumdray::raw::tp1_write(&numbers, &[0], &mut room), 8 << 8);
/// assert_eq!(klumdray::raw::tp1_write(&numbers, &[], &mut room), 14);
/// ```
#[inline]
pub fn tp1_write(numbers: &Numbers, payload: &[u8], room: &mut [u8]) -> u64 {
    call_writer!(klumdray_tp1_write(), numbers, payload, room)
}

/// A cEMI reader's answer as one number: bits 0 to 7 are the refusal's number, 0 if accepted.
///
/// ```
/// assert_eq!(klumdray::raw::cemi_read(&[0x29, 0xff]), 8);
/// ```
#[inline]
pub fn cemi_read(octets: &[u8]) -> u64 {
    // SAFETY: the library reads the n octets lent and keeps nothing.
    unsafe { klumdray_cemi_read(octets.as_ptr(), octets.len() as u64) }
}

/// A cEMI writer's answer: bits 0 to 7 the number, bits 8 to 63 the octets written.
///
/// ```
/// let numbers = klumdray::raw::Numbers {
///     extended: 0, first_sending: 1, priority: 3,
///     source: 0, group: 1, destination: 0x1234, count: 4,
/// };
/// let mut room = [0; 10];
/// assert_eq!(klumdray::raw::cemi_write(0x29, 0, &numbers, &[0], &mut room), 10 << 8);
/// assert_eq!(klumdray::raw::cemi_write(0x29, 1, &numbers, &[0], &mut room), 14);
/// ```
#[inline]
pub fn cemi_write(
    code: u32,
    error_mark: u32,
    numbers: &Numbers,
    payload: &[u8],
    room: &mut [u8],
) -> u64 {
    call_writer!(
        klumdray_cemi_write(code, error_mark),
        numbers,
        payload,
        room
    )
}

/// A routing reader's answer as one number: bits 0 to 7 are the refusal's number, 0 if accepted.
///
/// ```
/// assert_eq!(klumdray::raw::routing_read(&[0x06, 0x10, 0x05, 0x30, 0x00, 0x07]), 12);
/// ```
#[inline]
pub fn routing_read(octets: &[u8]) -> u64 {
    // SAFETY: the library reads the n octets lent and keeps nothing.
    unsafe { klumdray_routing_read(octets.as_ptr(), octets.len() as u64) }
}

/// A routing writer's answer: bits 0 to 7 the number, bits 8 to 63 the octets written.
///
/// ```
/// let numbers = klumdray::raw::Numbers {
///     extended: 0, first_sending: 1, priority: 3,
///     source: 0, group: 1, destination: 0x1234, count: 4,
/// };
/// let mut room = [0; 16];
/// assert_eq!(klumdray::raw::routing_write(0x29, 0, &numbers, &[0], &mut room), 16 << 8);
/// assert_eq!(klumdray::raw::routing_write(0x11, 0, &numbers, &[0], &mut room), 14);
/// ```
#[inline]
pub fn routing_write(
    code: u32,
    error_mark: u32,
    numbers: &Numbers,
    payload: &[u8],
    room: &mut [u8],
) -> u64 {
    call_writer!(
        klumdray_routing_write(code, error_mark),
        numbers,
        payload,
        room
    )
}

/// A step's answer: bits 0 to 7 the number, bits 8 to 15 the acknowledgement or 0, bit 16 for the
/// coupler itself, bits 32 to 63 the octets forwarded, each of them to be read whatever the number
/// is. The memory is a block of 530 octets, all zero at the start.
///
/// ```
/// let settings = [0xff, 0, 2, 0, 0, 0, 2, 0, 0, 0];
/// let setting = klumdray::raw::Setting { settings: &settings, table: &[], side: 0 };
/// let octets = [0xb0, 0xaf, 0xfe, 0x00, 0x00, 0xe1, 0x01, 0x00, 0xfe];
/// let (mut memory, mut room) = ([0; 530], [0; 272]);
/// let answer = klumdray::raw::step(&setting, &mut memory, &octets, &mut room);
/// assert_eq!(answer, 9 << 32 | 0xcc << 8);
/// assert_eq!(memory[..11], [0, 9, 0xb0, 0xaf, 0xfe, 0x00, 0x00, 0xe1, 0x01, 0x00, 0xfe]);
///
/// let shorter = klumdray::raw::Setting { settings: &settings[..9], ..setting };
/// assert_eq!(klumdray::raw::step(&shorter, &mut memory, &octets, &mut room), 14);
/// assert_eq!(klumdray::raw::step(&setting, &mut [], &octets, &mut room), 14);
/// assert_eq!(klumdray::raw::step(&setting, &mut memory, &octets, &mut room[1..]), 13);
/// ```
#[inline]
pub fn step(setting: &Setting<'_>, memory: &mut [u8], octets: &[u8], room: &mut [u8]) -> u64 {
    // SAFETY: the library reads settings, table and octets and writes memory and room within the
    // lengths lent, which Rust's borrows keep apart, and keeps none of them.
    unsafe {
        klumdray_step(
            setting.settings.as_ptr(),
            setting.settings.len() as u64,
            setting.table.as_ptr(),
            setting.table.len() as u64,
            setting.side,
            memory.as_mut_ptr(),
            memory.len() as u64,
            octets.as_ptr(),
            octets.len() as u64,
            room.as_mut_ptr(),
            room.len() as u64,
        )
    }
}

/// A trace's answer: bits 0 to 7 the number, bits 8 to 23 how many lines are listed, bits 24 to 39
/// the forwardings made. The list is at the front of the room, three octets a line.
///
/// ```
/// let query = klumdray::raw::Query { start: 0x40, kind: 1, destination: 0x1234, count: 2 };
/// let records = [0x43, 0x50, 0x40, 2, 2, 2, 2, 2, 2, 2, 2, 0xff];
/// let site = klumdray::raw::Site { records: &records, project: &[], own: &[] };
/// let mut room = [0x55; 768];
/// assert_eq!(klumdray::raw::trace(&query, &site, &mut room), 1 << 24 | 2 << 8);
/// assert_eq!(room[..7], [0x00, 1, 1, 0x40, 2, 0, 0x55]);
///
/// assert_eq!(klumdray::raw::trace(&query, &site, &mut room[1..]), 13);
/// ```
#[inline]
pub fn trace(query: &Query, site: &Site<'_>, room: &mut [u8]) -> u64 {
    let (front, length) = (room.as_mut_ptr(), room.len() as u64);
    call_tracer!(klumdray_trace, query, site, front, length)
}

/// A why's answer: bits 0 to 7 the number, bits 8 to 15 the reason or 0 if the line is reached,
/// bits 16 to 23 the line of the coupler that stops the telegram, bit 24 the direction, 0 main to
/// sub, 1 sub to main.
///
/// ```
/// let query = klumdray::raw::Query { start: 0x40, kind: 1, destination: 0x1234, count: 2 };
/// let records = [0x43, 0x50, 0x40, 2, 2, 2, 2, 2, 2, 2, 2, 0xff];
/// let site = klumdray::raw::Site { records: &records, project: &[], own: &[] };
/// assert_eq!(klumdray::raw::why(&query, &site, 0x00), 0);
/// assert_eq!(klumdray::raw::why(&query, &site, 0x10), 0x10 << 16 | 1 << 8);
///
/// let query = klumdray::raw::Query { kind: 2, ..query };
/// assert_eq!(klumdray::raw::why(&query, &site, 0x00), 14);
/// ```
#[inline]
pub fn why(query: &Query, site: &Site<'_>, line: u32) -> u32 {
    call_tracer!(klumdray_why, query, site, line)
}

/// A tunnelling request reader's answer as one number: bits 0 to 7 are the refusal's number, 0 if
/// accepted. Channel and counter are octets 7 and 8 of an accepted request.
///
/// ```
/// let header = [0x06, 0x10, 0x04, 0x20, 0x00, 0x0a];
/// let octets = [&header[..], &[0x04, 0x01, 0x00, 0x00]].concat();
/// assert_eq!(klumdray::raw::tunnelling_request_read(&header), 12);
/// assert_eq!(klumdray::raw::tunnelling_request_read(&octets), 1);
/// ```
#[inline]
pub fn tunnelling_request_read(octets: &[u8]) -> u64 {
    // SAFETY: the library reads the n octets lent and keeps nothing.
    unsafe { klumdray_tunnelling_request_read(octets.as_ptr(), octets.len() as u64) }
}

/// A tunnelling request writer's answer: bits 0 to 7 the number, bits 8 to 63 the octets written.
///
/// ```
/// let numbers = klumdray::raw::Numbers {
///     extended: 0, first_sending: 1, priority: 3,
///     source: 0, group: 1, destination: 0x1234, count: 6,
/// };
/// let write = klumdray::raw::tunnelling_request_write;
/// let mut room = [0; 20];
/// assert_eq!(write(1, 255, 0x11, 0, &numbers, &[0], &mut room), 20 << 8);
/// assert_eq!(room[..10], [0x06, 0x10, 0x04, 0x20, 0x00, 0x14, 0x04, 0x01, 0xff, 0x00]);
/// assert_eq!(write(1, 256, 0x11, 0, &numbers, &[0], &mut room), 14);
/// assert_eq!(write(1, 255, 0x11, 0, &numbers, &[0, 0], &mut room), 13);
/// ```
#[inline]
pub fn tunnelling_request_write(
    channel: u32,
    counter: u32,
    code: u32,
    error_mark: u32,
    numbers: &Numbers,
    payload: &[u8],
    room: &mut [u8],
) -> u64 {
    call_writer!(
        klumdray_tunnelling_request_write(channel, counter, code, error_mark),
        numbers,
        payload,
        room
    )
}

/// The answer of the acknowledgement's reader: bits 0 to 7 the number, bits 8 to 15 the channel,
/// bits 16 to 23 the counter, bits 24 to 31 the status.
///
/// ```
/// let octets = [0x06, 0x10, 0x04, 0x21, 0x00, 0x0a, 0x04, 0x02, 0x07, 0x29];
/// assert_eq!(klumdray::raw::tunnelling_ack_read(&octets), 0x29_07_02_00);
/// assert_eq!(klumdray::raw::tunnelling_ack_read(&octets[..5]), 1);
/// ```
#[inline]
pub fn tunnelling_ack_read(octets: &[u8]) -> u32 {
    // SAFETY: the library reads the n octets lent and keeps nothing.
    unsafe { klumdray_tunnelling_ack_read(octets.as_ptr(), octets.len() as u64) }
}

/// The answer of the acknowledgement's writer: bits 0 to 7 the number, bits 8 to 63 the octets
/// written.
///
/// ```
/// let mut room = [0; 10];
/// assert_eq!(klumdray::raw::tunnelling_ack_write(2, 7, 0x29, &mut room), 10 << 8);
/// assert_eq!(room, [0x06, 0x10, 0x04, 0x21, 0x00, 0x0a, 0x04, 0x02, 0x07, 0x29]);
/// assert_eq!(klumdray::raw::tunnelling_ack_write(2, 7, 256, &mut room), 14);
/// ```
#[inline]
pub fn tunnelling_ack_write(channel: u32, counter: u32, status: u32, room: &mut [u8]) -> u64 {
    let (front, length) = (room.as_mut_ptr(), room.len() as u64);
    // SAFETY: the library writes the room within the length lent and does not keep it.
    unsafe { klumdray_tunnelling_ack_write(channel, counter, status, front, length) }
}

/// A receive's answer: bits 0 to 7 the number; with 0, the other bits as a reader's if the request
/// is delivered, and 0 if it is acknowledged again. The acknowledgement is at the front of the
/// room. The table of channels is a block of 12 octets, three a channel: 01h if it is open, the
/// receive counter, the send counter.
///
/// ```
/// let octets = [
///     0x06, 0x10, 0x04, 0x20, 0x00, 0x14, 0x04, 0x02, 0x07, 0x00,
///     0x11, 0x00, 0xbc, 0xe0, 0x00, 0x00, 0x12, 0x34, 0x00, 0x00,
/// ];
/// let (mut channels, mut room) = ([0, 0, 0, 1, 7, 0, 0, 0, 0, 0, 0, 0], [0; 10]);
/// let answer = klumdray::raw::tunnelling_receive(&mut channels, &octets, &mut room);
/// assert_eq!(answer, klumdray::raw::tunnelling_request_read(&octets));
/// assert_eq!(room, [0x06, 0x10, 0x04, 0x21, 0x00, 0x0a, 0x04, 0x02, 0x07, 0x00]);
/// assert_eq!(channels[3..6], [1, 8, 0]);
///
/// assert_eq!(klumdray::raw::tunnelling_receive(&mut channels, &octets, &mut room), 0);
/// assert_eq!(channels[3..6], [1, 8, 0]);
/// assert_eq!(klumdray::raw::tunnelling_receive(&mut channels[1..], &octets, &mut room), 14);
/// ```
#[inline]
pub fn tunnelling_receive(channels: &mut [u8], octets: &[u8], room: &mut [u8]) -> u64 {
    // SAFETY: the library reads octets and writes channels and room within the lengths lent, which
    // Rust's borrows keep apart, and keeps none of them.
    unsafe {
        klumdray_tunnelling_receive(
            channels.as_mut_ptr(),
            channels.len() as u64,
            octets.as_ptr(),
            octets.len() as u64,
            room.as_mut_ptr(),
            room.len() as u64,
        )
    }
}

/// A writer's answer, of a request with the channel's send counter: bits 0 to 7 the number, bits 8
/// to 63 the octets written.
///
/// ```
/// let numbers = klumdray::raw::Numbers {
///     extended: 0, first_sending: 1, priority: 3,
///     source: 0, group: 1, destination: 0x1234, count: 6,
/// };
/// let channels = [0, 0, 0, 1, 0, 7, 0, 0, 0, 0, 0, 0];
/// let send = klumdray::raw::tunnelling_send;
/// let mut room = [0; 20];
/// assert_eq!(send(&channels, 2, 0x29, 0, &numbers, &[0], &mut room), 20 << 8);
/// assert_eq!(room[6..10], [0x04, 0x02, 0x07, 0x00]);
/// assert_eq!(send(&channels, 3, 0x29, 0, &numbers, &[0], &mut room), 20);
/// assert_eq!(send(&channels, 300, 0x29, 0, &numbers, &[0], &mut room), 20);
/// ```
#[inline]
pub fn tunnelling_send(
    channels: &[u8],
    channel: u32,
    code: u32,
    error_mark: u32,
    numbers: &Numbers,
    payload: &[u8],
    room: &mut [u8],
) -> u64 {
    let (front, length) = (channels.as_ptr(), channels.len() as u64);
    call_writer!(
        klumdray_tunnelling_send(front, length, channel, code, error_mark),
        numbers,
        payload,
        room
    )
}

/// A confirm's answer: bits 0 to 7 the number, bit 8 is 1 if the send counter was raised.
///
/// ```
/// let mut octets = [0x06, 0x10, 0x04, 0x21, 0x00, 0x0a, 0x04, 0x02, 0x07, 0x29];
/// let mut channels = [0, 0, 0, 1, 0, 7, 0, 0, 0, 0, 0, 0];
/// assert_eq!(klumdray::raw::tunnelling_confirm(&mut channels, &octets), 0);
/// assert_eq!(channels[3..6], [1, 0, 7]);
/// octets[9] = 0x00;
/// assert_eq!(klumdray::raw::tunnelling_confirm(&mut channels, &octets), 1 << 8);
/// assert_eq!(channels[3..6], [1, 0, 8]);
/// assert_eq!(klumdray::raw::tunnelling_confirm(&mut channels, &octets), 21);
/// ```
#[inline]
pub fn tunnelling_confirm(channels: &mut [u8], octets: &[u8]) -> u32 {
    // SAFETY: the library reads octets and writes channels within the lengths lent, which Rust's
    // borrows keep apart, and keeps neither.
    unsafe {
        klumdray_tunnelling_confirm(
            channels.as_mut_ptr(),
            channels.len() as u64,
            octets.as_ptr(),
            octets.len() as u64,
        )
    }
}

/// The answer to reading a two-octet float, given as its code: bits 0 to 7 the number, bits 32 to 63
/// the hundredths in two's complement.
///
/// ```
/// assert_eq!(klumdray::raw::float_value(0x0c1a), 2_100 << 32);
/// assert_eq!(klumdray::raw::float_value(0x87ff), 0xffff_ffff << 32);
/// assert_eq!(klumdray::raw::float_value(0x7fff), 23);
/// assert_eq!(klumdray::raw::float_value(0x1_0c1a), 14);
/// ```
#[inline]
pub fn float_value(code: u32) -> u64 {
    // SAFETY: the library is lent nothing.
    unsafe { klumdray_float_value(code) }
}

/// The same answer of the float's octets.
///
/// ```
/// assert_eq!(klumdray::raw::float_read(&[0x0c, 0x1a]), 2_100 << 32);
/// assert_eq!(klumdray::raw::float_read(&[0x0c]), 1);
/// assert_eq!(klumdray::raw::float_read(&[0x7f, 0xff, 0x00]), 5);
/// assert_eq!(klumdray::raw::float_read(&[0x7f, 0xff]), 23);
/// ```
#[inline]
pub fn float_read(octets: &[u8]) -> u64 {
    // SAFETY: the library reads the octets lent and keeps nothing.
    unsafe { klumdray_float_read(octets.as_ptr(), octets.len() as u64) }
}

/// The answer to writing hundredths as a two-octet float: bits 0 to 7 the number, bits 16 to 31 the
/// code.
///
/// ```
/// assert_eq!(klumdray::raw::float_write(2_100), 0x0c1a << 16);
/// assert_eq!(klumdray::raw::float_write(-67_108_864), 0xf800 << 16);
/// assert_eq!(klumdray::raw::float_write(-67_108_865), 14);
/// assert_eq!(klumdray::raw::float_write(67_043_329), 14);
/// ```
#[inline]
pub fn float_write(hundredths: i64) -> u32 {
    // SAFETY: the library is lent nothing.
    unsafe { klumdray_float_write(hundredths) }
}

/// A payload's answer: bits 0 to 7 are 0, bit 8 is 1 if the payload is an increment, and then bits
/// 16 to 31 are the code that it carries.
///
/// ```
/// assert_eq!(klumdray::raw::increment(&[0x00, 0x80, 0x0c, 0x1a]), 0x0c1a << 16 | 1 << 8);
/// assert_eq!(klumdray::raw::increment(&[0x00, 0x81]), 0);
/// ```
#[inline]
pub fn increment(payload: &[u8]) -> u32 {
    // SAFETY: the library reads the octets lent and keeps nothing.
    unsafe { klumdray_increment(payload.as_ptr(), payload.len() as u64) }
}

/// The number, of adding what a code stands for to a total. The total is a block of 8 octets: 64
/// bits of hundredths in two's complement, high octet first.
///
/// ```
/// let mut total = [0, 0, 0, 0, 0, 0, 0, 100];
/// assert_eq!(klumdray::raw::total_add(&mut total, 0x0c1a), 0);
/// assert_eq!(i64::from_be_bytes(total), 2_200);
/// assert_eq!(klumdray::raw::total_add(&mut total, 0x7fff), 23);
/// assert_eq!(klumdray::raw::total_add(&mut total, 0x1_0000), 14);
/// assert_eq!(klumdray::raw::total_add(&mut total[1..], 0x0c1a), 14);
/// ```
#[inline]
pub fn total_add(total: &mut [u8], code: u32) -> u32 {
    // SAFETY: the library reads and writes the total within the length lent and does not keep it.
    unsafe { klumdray_total_add(total.as_mut_ptr(), total.len() as u64, code) }
}

/// A take's answer: bits 0 to 7 the number, bits 8 to 15 what the frame is (1 counted, 2 a
/// repetition, 3 of another group, 4 no increment), bits 16 to 31 the code that was added. The total
/// is a block of 8 octets as for [`total_add`], the memory one of 265, all zero at the start.
///
/// ```
/// let octets = [0xbc, 0x47, 0x15, 0x12, 0x34, 0xe3, 0x00, 0x80, 0x0c, 0x1a, 0x42];
/// let (mut total, mut memory) = ([0; 8], [0; 265]);
/// let take = klumdray::raw::take;
/// assert_eq!(take(&mut total, &mut memory, 0x1234, &octets), 0x0c1a << 16 | 1 << 8);
/// assert_eq!(i64::from_be_bytes(total), 2_100);
/// assert_eq!(memory[..5], [0, 11, 0xbc, 0x47, 0x15]);
///
/// assert_eq!(take(&mut total, &mut memory, 0x1235, &octets), 3 << 8);
/// assert_eq!(take(&mut total, &mut memory, 0x1_1234, &octets), 14);
/// assert_eq!(take(&mut total, &mut memory[1..], 0x1234, &octets), 14);
/// assert_eq!(take(&mut total, &mut memory, 0x1234, &octets[1..]), 2);
/// ```
#[inline]
pub fn take(total: &mut [u8], memory: &mut [u8], group: u32, octets: &[u8]) -> u32 {
    // SAFETY: the library reads octets and writes total and memory within the lengths lent, which
    // Rust's borrows keep apart, and keeps none of them.
    unsafe {
        klumdray_take(
            total.as_mut_ptr(),
            total.len() as u64,
            memory.as_mut_ptr(),
            memory.len() as u64,
            group,
            octets.as_ptr(),
            octets.len() as u64,
        )
    }
}
