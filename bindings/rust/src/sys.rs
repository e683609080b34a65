//! The functions of include/legacy_pairing.h, in its order. A slice of Rattle is a pointer and a length.

extern "C" {
    pub fn legacy_pairing_version() -> u32;

    pub fn legacy_pairing_new(
        role: u8,
        local_address: *const u8,
        local_address_len: usize,
        peer_address: *const u8,
        peer_address_len: usize,
        features: *const u8,
        features_len: usize,
        machine: *mut u8,
        machine_len: usize,
    ) -> u8;

    pub fn legacy_pairing_step(
        role: u8,
        machine: *mut u8,
        machine_len: usize,
        input: u16,
        payload: *const u8,
        payload_len: usize,
        answers: *const u8,
        answers_len: usize,
        list: *mut u8,
        list_len: usize,
        read: *mut usize,
        written: *mut usize,
    ) -> u8;

    pub fn legacy_pairing_result(
        role: u8,
        machine: *const u8,
        machine_len: usize,
        result: *mut u8,
        error: *mut u8,
        detail: *mut u8,
        is_encrypted: *mut u8,
        level: *mut u8,
    ) -> u8;

    pub fn legacy_pairing_read_features(
        payload: *const u8,
        payload_len: usize,
        fields: *mut u8,
        fields_len: usize,
    ) -> u8;

    pub fn legacy_pairing_write_features(
        io: u8,
        oob: u8,
        auth_req: u8,
        key_size: u8,
        initiator_keys: u8,
        responder_keys: u8,
        payload: *mut u8,
        payload_len: usize,
    ) -> u8;

    pub fn legacy_pairing_c1(
        k: *const u8,
        k_len: usize,
        r: *const u8,
        r_len: usize,
        preq: *const u8,
        preq_len: usize,
        pres: *const u8,
        pres_len: usize,
        initiator: *const u8,
        initiator_len: usize,
        responder: *const u8,
        responder_len: usize,
        confirm: *mut u8,
        confirm_len: usize,
    ) -> u8;

    pub fn legacy_pairing_s1(
        k: *const u8,
        k_len: usize,
        srand: *const u8,
        srand_len: usize,
        mrand: *const u8,
        mrand_len: usize,
        key: *mut u8,
        key_len: usize,
    ) -> u8;

    pub fn legacy_pairing_count_calls(list: *const u8, list_len: usize, count: *mut usize) -> u8;

    pub fn legacy_pairing_call_at(
        list: *const u8,
        list_len: usize,
        index: usize,
        kind: *mut u8,
        body: *mut usize,
        size: *mut usize,
    ) -> u8;
}
