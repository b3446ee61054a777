// The functions of the proved library, as C sees them, and the same on slices.

extern "C" {
    fn guppyspoon_inverse(p: u32, x: u32, answer: *mut u32, answer_length: usize);
    fn guppyspoon_evaluate(
        p: u32, n: u32, coefficients: *const u32, coefficients_length: usize, values: *mut u32, values_length: usize, scratch: *mut u32,
        scratch_length: usize, answer: *mut u32, answer_length: usize,
    );
    fn guppyspoon_interpolate(
        p: u32, n: u32, values: *const u32, values_length: usize, coefficients: *mut u32, coefficients_length: usize, scratch: *mut u32,
        scratch_length: usize, answer: *mut u32, answer_length: usize,
    );
    fn guppyspoon_permutation(
        p: u32, n: u32, labels: *const u32, labels_length: usize, positions: *mut u32, positions_length: usize, answer: *mut u32,
        answer_length: usize,
    );
    fn guppyspoon_prepare(
        p: u32, n: u32, l: u32, selectors: *const u32, selectors_length: usize, labels: *const u32, labels_length: usize,
        written: *mut u32, written_length: usize, scratch: *mut u32, scratch_length: usize, answer: *mut u32, answer_length: usize,
    );
    fn guppyspoon_check_rows(
        p: u32, n: u32, l: u32, selectors: *const u32, selectors_length: usize, labels: *const u32, labels_length: usize,
        witness: *const u32, witness_length: usize, publics: *const u32, publics_length: usize, z: *const u32, z_length: usize,
        challenges: *const u32, challenges_length: usize, answer: *mut u32, answer_length: usize,
    );
    fn guppyspoon_check_point(
        p: u32, n: u32, l: u32, publics: *const u32, publics_length: usize, prepared: *const u32, prepared_length: usize,
        transcript: *const u32, transcript_length: usize, challenges: *const u32, challenges_length: usize, scratch: *mut u32,
        scratch_length: usize, answer: *mut u32, answer_length: usize,
    );
    fn guppyspoon_open(
        p: u32, n: u32, prepared: *const u32, prepared_length: usize, transcript: *const u32, transcript_length: usize, list: *const u32,
        list_length: usize, evaluations: *mut u32, evaluations_length: usize, opening: *mut u32, opening_length: usize,
        challenges: *const u32, challenges_length: usize, scratch: *mut u32, scratch_length: usize, answer: *mut u32, answer_length: usize,
    );
    fn guppyspoon_check_opening(
        p: u32, n: u32, prepared: *const u32, prepared_length: usize, transcript: *const u32, transcript_length: usize, list: *const u32,
        list_length: usize, evaluations: *const u32, evaluations_length: usize, opening: *const u32, opening_length: usize,
        challenges: *const u32, challenges_length: usize, scratch: *mut u32, scratch_length: usize, answer: *mut u32, answer_length: usize,
    );
    fn guppyspoon_prove(
        p: u32, n: u32, l: u32, selectors: *const u32, selectors_length: usize, labels: *const u32, labels_length: usize,
        witness: *const u32, witness_length: usize, publics: *const u32, publics_length: usize, transcript: *mut u32,
        transcript_length: usize, challenges: *const u32, challenges_length: usize, scratch: *mut u32, scratch_length: usize,
        answer: *mut u32, answer_length: usize,
    );
    fn guppyspoon_prove_blinded(
        p: u32, n: u32, l: u32, selectors: *const u32, selectors_length: usize, labels: *const u32, labels_length: usize,
        witness: *const u32, witness_length: usize, publics: *const u32, publics_length: usize, transcript: *mut u32,
        transcript_length: usize, challenges: *const u32, challenges_length: usize, blinders: *const u32, blinders_length: usize,
        scratch: *mut u32, scratch_length: usize, answer: *mut u32, answer_length: usize,
    );
    fn guppyspoon_lost_gammas(
        p: u32, n: u32, witness: *const u32, witness_length: usize, challenges: *const u32, challenges_length: usize, answer: *mut u32,
        answer_length: usize,
    );
    fn guppyspoon_read(
        sheet: *const u8, sheet_length: usize, selectors: *mut u32, selectors_length: usize, labels: *mut u32, labels_length: usize,
        witness: *mut u32, witness_length: usize, publics: *mut u32, publics_length: usize, challenges: *mut u32, challenges_length: usize,
        answer: *mut u32, answer_length: usize,
    );
    fn guppyspoon_to_rows(
        n: u32, columns: *const u32, columns_length: usize, rows: *mut u32, rows_length: usize, answer: *mut u32, answer_length: usize,
    );
    fn guppyspoon_to_columns(
        n: u32, rows: *const u32, rows_length: usize, columns: *mut u32, columns_length: usize, answer: *mut u32, answer_length: usize,
    );
    fn guppyspoon_deposit(sheet: *const u8, sheet_length: usize, text: *mut u8, text_length: usize, answer: *mut u32, answer_length: usize);
    fn guppyspoon_join(
        one: *const u8, one_length: usize, two: *const u8, two_length: usize, joined: *mut u8, joined_length: usize, answer: *mut u32,
        answer_length: usize,
    );
}

// Where a function starts, by its name without the prefix.
pub fn address(name: &str) -> *const () {
    match name {
        "inverse" => guppyspoon_inverse as *const (),
        "evaluate" => guppyspoon_evaluate as *const (),
        "interpolate" => guppyspoon_interpolate as *const (),
        "permutation" => guppyspoon_permutation as *const (),
        "prepare" => guppyspoon_prepare as *const (),
        "check_rows" => guppyspoon_check_rows as *const (),
        "check_point" => guppyspoon_check_point as *const (),
        "open" => guppyspoon_open as *const (),
        "check_opening" => guppyspoon_check_opening as *const (),
        "prove" => guppyspoon_prove as *const (),
        "prove_blinded" => guppyspoon_prove_blinded as *const (),
        "lost_gammas" => guppyspoon_lost_gammas as *const (),
        "read" => guppyspoon_read as *const (),
        "to_rows" => guppyspoon_to_rows as *const (),
        "to_columns" => guppyspoon_to_columns as *const (),
        "deposit" => guppyspoon_deposit as *const (),
        "join" => guppyspoon_join as *const (),
        _ => unreachable!("the library has no guppyspoon_{name}"),
    }
}

// Each slice is lent whole, and those that are written do not overlap another, as Rust's borrows see to.

pub fn inverse(p: u32, x: u32, answer: &mut [u32]) {
    unsafe { guppyspoon_inverse(p, x, answer.as_mut_ptr(), answer.len()) }
}

pub fn evaluate(p: u32, n: u32, coefficients: &[u32], values: &mut [u32], scratch: &mut [u32], answer: &mut [u32]) {
    unsafe {
        guppyspoon_evaluate(
            p,
            n,
            coefficients.as_ptr(),
            coefficients.len(),
            values.as_mut_ptr(),
            values.len(),
            scratch.as_mut_ptr(),
            scratch.len(),
            answer.as_mut_ptr(),
            answer.len(),
        )
    }
}

pub fn interpolate(p: u32, n: u32, values: &[u32], coefficients: &mut [u32], scratch: &mut [u32], answer: &mut [u32]) {
    unsafe {
        guppyspoon_interpolate(
            p,
            n,
            values.as_ptr(),
            values.len(),
            coefficients.as_mut_ptr(),
            coefficients.len(),
            scratch.as_mut_ptr(),
            scratch.len(),
            answer.as_mut_ptr(),
            answer.len(),
        )
    }
}

pub fn permutation(p: u32, n: u32, labels: &[u32], positions: &mut [u32], answer: &mut [u32]) {
    unsafe {
        guppyspoon_permutation(
            p,
            n,
            labels.as_ptr(),
            labels.len(),
            positions.as_mut_ptr(),
            positions.len(),
            answer.as_mut_ptr(),
            answer.len(),
        )
    }
}

pub fn prepare(p: u32, n: u32, l: u32, selectors: &[u32], labels: &[u32], written: &mut [u32], scratch: &mut [u32], answer: &mut [u32]) {
    unsafe {
        guppyspoon_prepare(
            p,
            n,
            l,
            selectors.as_ptr(),
            selectors.len(),
            labels.as_ptr(),
            labels.len(),
            written.as_mut_ptr(),
            written.len(),
            scratch.as_mut_ptr(),
            scratch.len(),
            answer.as_mut_ptr(),
            answer.len(),
        )
    }
}

pub fn check_rows(
    p: u32, n: u32, l: u32, selectors: &[u32], labels: &[u32], witness: &[u32], publics: &[u32], z: &[u32], challenges: &[u32],
    answer: &mut [u32],
) {
    unsafe {
        guppyspoon_check_rows(
            p,
            n,
            l,
            selectors.as_ptr(),
            selectors.len(),
            labels.as_ptr(),
            labels.len(),
            witness.as_ptr(),
            witness.len(),
            publics.as_ptr(),
            publics.len(),
            z.as_ptr(),
            z.len(),
            challenges.as_ptr(),
            challenges.len(),
            answer.as_mut_ptr(),
            answer.len(),
        )
    }
}

pub fn check_point(
    p: u32, n: u32, l: u32, publics: &[u32], prepared: &[u32], transcript: &[u32], challenges: &[u32], scratch: &mut [u32],
    answer: &mut [u32],
) {
    unsafe {
        guppyspoon_check_point(
            p,
            n,
            l,
            publics.as_ptr(),
            publics.len(),
            prepared.as_ptr(),
            prepared.len(),
            transcript.as_ptr(),
            transcript.len(),
            challenges.as_ptr(),
            challenges.len(),
            scratch.as_mut_ptr(),
            scratch.len(),
            answer.as_mut_ptr(),
            answer.len(),
        )
    }
}

pub fn open(
    p: u32, n: u32, prepared: &[u32], transcript: &[u32], list: &[u32], evaluations: &mut [u32], opening: &mut [u32], challenges: &[u32],
    scratch: &mut [u32], answer: &mut [u32],
) {
    unsafe {
        guppyspoon_open(
            p,
            n,
            prepared.as_ptr(),
            prepared.len(),
            transcript.as_ptr(),
            transcript.len(),
            list.as_ptr(),
            list.len(),
            evaluations.as_mut_ptr(),
            evaluations.len(),
            opening.as_mut_ptr(),
            opening.len(),
            challenges.as_ptr(),
            challenges.len(),
            scratch.as_mut_ptr(),
            scratch.len(),
            answer.as_mut_ptr(),
            answer.len(),
        )
    }
}

pub fn check_opening(
    p: u32, n: u32, prepared: &[u32], transcript: &[u32], list: &[u32], evaluations: &[u32], opening: &[u32], challenges: &[u32],
    scratch: &mut [u32], answer: &mut [u32],
) {
    unsafe {
        guppyspoon_check_opening(
            p,
            n,
            prepared.as_ptr(),
            prepared.len(),
            transcript.as_ptr(),
            transcript.len(),
            list.as_ptr(),
            list.len(),
            evaluations.as_ptr(),
            evaluations.len(),
            opening.as_ptr(),
            opening.len(),
            challenges.as_ptr(),
            challenges.len(),
            scratch.as_mut_ptr(),
            scratch.len(),
            answer.as_mut_ptr(),
            answer.len(),
        )
    }
}

pub fn prove(
    p: u32, n: u32, l: u32, selectors: &[u32], labels: &[u32], witness: &[u32], publics: &[u32], transcript: &mut [u32],
    challenges: &[u32], scratch: &mut [u32], answer: &mut [u32],
) {
    unsafe {
        guppyspoon_prove(
            p,
            n,
            l,
            selectors.as_ptr(),
            selectors.len(),
            labels.as_ptr(),
            labels.len(),
            witness.as_ptr(),
            witness.len(),
            publics.as_ptr(),
            publics.len(),
            transcript.as_mut_ptr(),
            transcript.len(),
            challenges.as_ptr(),
            challenges.len(),
            scratch.as_mut_ptr(),
            scratch.len(),
            answer.as_mut_ptr(),
            answer.len(),
        )
    }
}

pub fn prove_blinded(
    p: u32, n: u32, l: u32, selectors: &[u32], labels: &[u32], witness: &[u32], publics: &[u32], transcript: &mut [u32],
    challenges: &[u32], blinders: &[u32], scratch: &mut [u32], answer: &mut [u32],
) {
    unsafe {
        guppyspoon_prove_blinded(
            p,
            n,
            l,
            selectors.as_ptr(),
            selectors.len(),
            labels.as_ptr(),
            labels.len(),
            witness.as_ptr(),
            witness.len(),
            publics.as_ptr(),
            publics.len(),
            transcript.as_mut_ptr(),
            transcript.len(),
            challenges.as_ptr(),
            challenges.len(),
            blinders.as_ptr(),
            blinders.len(),
            scratch.as_mut_ptr(),
            scratch.len(),
            answer.as_mut_ptr(),
            answer.len(),
        )
    }
}

pub fn lost_gammas(p: u32, n: u32, witness: &[u32], challenges: &[u32], answer: &mut [u32]) {
    unsafe {
        guppyspoon_lost_gammas(
            p,
            n,
            witness.as_ptr(),
            witness.len(),
            challenges.as_ptr(),
            challenges.len(),
            answer.as_mut_ptr(),
            answer.len(),
        )
    }
}

pub fn read(
    sheet: &[u8], selectors: &mut [u32], labels: &mut [u32], witness: &mut [u32], publics: &mut [u32], challenges: &mut [u32],
    answer: &mut [u32],
) {
    unsafe {
        guppyspoon_read(
            sheet.as_ptr(),
            sheet.len(),
            selectors.as_mut_ptr(),
            selectors.len(),
            labels.as_mut_ptr(),
            labels.len(),
            witness.as_mut_ptr(),
            witness.len(),
            publics.as_mut_ptr(),
            publics.len(),
            challenges.as_mut_ptr(),
            challenges.len(),
            answer.as_mut_ptr(),
            answer.len(),
        )
    }
}

pub fn to_rows(n: u32, columns: &[u32], rows: &mut [u32], answer: &mut [u32]) {
    unsafe { guppyspoon_to_rows(n, columns.as_ptr(), columns.len(), rows.as_mut_ptr(), rows.len(), answer.as_mut_ptr(), answer.len()) }
}

pub fn to_columns(n: u32, rows: &[u32], columns: &mut [u32], answer: &mut [u32]) {
    unsafe { guppyspoon_to_columns(n, rows.as_ptr(), rows.len(), columns.as_mut_ptr(), columns.len(), answer.as_mut_ptr(), answer.len()) }
}

pub fn deposit(sheet: &[u8], text: &mut [u8], answer: &mut [u32]) {
    unsafe { guppyspoon_deposit(sheet.as_ptr(), sheet.len(), text.as_mut_ptr(), text.len(), answer.as_mut_ptr(), answer.len()) }
}

pub fn join(one: &[u8], two: &[u8], joined: &mut [u8], answer: &mut [u32]) {
    unsafe {
        guppyspoon_join(
            one.as_ptr(),
            one.len(),
            two.as_ptr(),
            two.len(),
            joined.as_mut_ptr(),
            joined.len(),
            answer.as_mut_ptr(),
            answer.len(),
        )
    }
}
