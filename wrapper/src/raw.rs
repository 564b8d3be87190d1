//! The functions of `include/layer1.h`; `.ci/header` holds the two against each other.

extern "C" {
    pub fn layer1_version() -> u32;
    pub fn layer1_share_places(
        shares: u64,
        waiting: u64,
        places: *mut u8,
        places_len: usize,
    ) -> u64;
    pub fn layer1_sheet(
        mode: u8,
        count: u64,
        without_p3: u8,
        without_p4: u8,
        work: u8,
        input: *const u8,
        input_len: usize,
        out: *mut u8,
        out_len: usize,
    ) -> u64;
    pub fn layer1_start_sender(
        mode: u8,
        memory3: *mut u8,
        memory3_len: usize,
        memory4: *mut u8,
        memory4_len: usize,
        delay: *mut u8,
        delay_len: usize,
    ) -> u64;
    pub fn layer1_start_reader(
        mode: u8,
        memory3: *mut u8,
        memory3_len: usize,
        memory4: *mut u8,
        memory4_len: usize,
        delay: *mut u8,
        delay_len: usize,
    ) -> u64;
    pub fn layer1_send(
        mode: u8,
        half: u8,
        age: u8,
        last: u8,
        reserved: u8,
        p1: *const u8,
        p1_len: usize,
        pids: *const u8,
        pids_len: usize,
        p2: *const u8,
        p2_len: usize,
        p3: *const u8,
        p3_len: usize,
        p4: *const u8,
        p4_len: usize,
        pm: *mut u8,
        pm_len: usize,
        px1: *mut u8,
        px1_len: usize,
        px2: *mut u8,
        px2_len: usize,
        control: *mut u8,
        control_len: usize,
        memory3: *mut u8,
        memory3_len: usize,
        memory4: *mut u8,
        memory4_len: usize,
        delay: *mut u8,
        delay_len: usize,
    ) -> u64;
    pub fn layer1_read(
        mode: u8,
        half: u8,
        age: u8,
        last: u8,
        p1: *mut u8,
        p1_len: usize,
        pids: *mut u8,
        pids_len: usize,
        p2: *mut u8,
        p2_len: usize,
        p3: *mut u8,
        p3_len: usize,
        p4: *mut u8,
        p4_len: usize,
        pm: *const u8,
        pm_len: usize,
        px1: *const u8,
        px1_len: usize,
        px2: *const u8,
        px2_len: usize,
        control: *const u8,
        control_len: usize,
        memory3: *mut u8,
        memory3_len: usize,
        memory4: *mut u8,
        memory4_len: usize,
        delay: *mut u8,
        delay_len: usize,
    ) -> u64;
    pub fn layer1_sender_length(mode: u8, place: usize) -> usize;
    pub fn layer1_reader_length(mode: u8, place: usize) -> usize;
    pub fn layer1_find(row: usize, column: usize) -> u64;
    pub fn layer1_place_of(row: usize, column: usize) -> u64;
    pub fn layer1_find_px(
        mode: u8,
        half: u8,
        age: u8,
        last: u8,
        channel: u8,
        pair: usize,
        row: usize,
        column: usize,
    ) -> u64;
    pub fn layer1_locate(channel: u8, frame: usize, bit: usize) -> u64;
    pub fn layer1_locate_px(
        mode: u8,
        half: u8,
        age: u8,
        last: u8,
        channel: u8,
        frame: usize,
        bit: usize,
    ) -> u64;
    pub fn layer1_find_in(mode: u8, row: usize, column: usize) -> u64;
    pub fn layer1_locate_in(mode: u8, channel: u8, frame: usize, bit: usize) -> u64;
    pub fn layer1_find_px_in(
        mode: u8,
        half: u8,
        age: u8,
        last: u8,
        channel: u8,
        pair: usize,
        row: usize,
        column: usize,
    ) -> u64;
    pub fn layer1_locate_px_in(
        mode: u8,
        half: u8,
        age: u8,
        last: u8,
        channel: u8,
        frame: usize,
        bit: usize,
    ) -> u64;
    pub fn layer1_working(
        mode: u8,
        half: u8,
        age: u8,
        last: u8,
        channel: u8,
        frames: *const u8,
        frames_len: usize,
        frame: usize,
        bit: usize,
        out: *mut u64,
        out_len: usize,
    ) -> u64;
    pub fn layer1_working_in(
        mode: u8,
        half: u8,
        age: u8,
        last: u8,
        channel: u8,
        frames: *const u8,
        frames_len: usize,
        frame: usize,
        bit: usize,
        out: *mut u64,
        out_len: usize,
    ) -> u64;
    pub fn layer1_lookup(block: *const u8, block_len: usize) -> u64;
    pub fn layer1_lookup_frame(control: *const u8, control_len: usize) -> u64;
    pub fn layer1_nearest(
        cells: *const u8,
        cells_len: usize,
        frame: *mut u8,
        frame_len: usize,
        budget: usize,
    ) -> u64;
    pub fn layer1_judge(dump: *const u8, dump_len: usize) -> u64;
    pub fn layer1_restore(
        cells: *const u8,
        cells_len: usize,
        frame: *mut u8,
        frame_len: usize,
    ) -> u64;
    pub fn layer1_fill_vector(
        mode: u8,
        symbol: usize,
        lower: f32,
        upper: f32,
        pm: *const u8,
        pm_len: usize,
        px1: *const u8,
        px1_len: usize,
        px2: *const u8,
        px2_len: usize,
        control: *const u8,
        control_len: usize,
        re: *mut f32,
        re_len: usize,
        im: *mut f32,
        im_len: usize,
    ) -> u64;
    pub fn layer1_pm_row(row: usize, pm: *const u8, pm_len: usize) -> u64;
    pub fn layer1_px_row(
        channel: u8,
        row: usize,
        px1: *const u8,
        px1_len: usize,
        px2: *const u8,
        px2_len: usize,
    ) -> u64;
}
