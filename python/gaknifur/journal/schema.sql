-- The content of journal images. Names end in their units: cm, ms, m_per_h (1 km/h is 1,000 m_per_h), kmh. NULL is an
-- unknown value. `verdict` has the sentences of `lab check`, and is empty if nothing was found. `user_version` is the version of this schema.
CREATE TABLE image (
    image INTEGER PRIMARY KEY,
    name TEXT NOT NULL,
    unit TEXT,
    vehicle TEXT,
    software TEXT,
    sha256 TEXT NOT NULL UNIQUE CHECK (length(sha256) = 64),
    bytes INTEGER NOT NULL,
    sectors INTEGER NOT NULL,
    slots INTEGER,
    first_block INTEGER,
    newest_block INTEGER,
    first_event INTEGER,
    last_event INTEGER,
    lives INTEGER,
    power_up_opens INTEGER NOT NULL CHECK (power_up_opens IN (0, 1)),
    power_up_refusal TEXT,
    verdict TEXT NOT NULL,
    is_whole INTEGER NOT NULL CHECK (is_whole IN (0, 1)),
    events_refusal TEXT,
    reader TEXT NOT NULL,
    reader_is_proved INTEGER CHECK (reader_is_proved IN (0, 1))
) STRICT;

-- each slot that isn't empty
CREATE TABLE slot (
    image INTEGER NOT NULL REFERENCES image ON DELETE CASCADE,
    slot INTEGER NOT NULL,
    state TEXT NOT NULL,
    number INTEGER,
    first_sector INTEGER NOT NULL,
    last_sector INTEGER NOT NULL,
    format INTEGER,
    life INTEGER,
    first_event INTEGER,
    last_event INTEGER,
    gate_is_own INTEGER CHECK (gate_is_own IN (0, 1)),
    in_journal INTEGER CHECK (in_journal IN (0, 1)),
    field TEXT,
    record INTEGER,
    byte INTEGER,
    PRIMARY KEY (image, slot)
) STRICT, WITHOUT ROWID;

-- blocks and events that no readable block holds
CREATE TABLE lost (
    image INTEGER NOT NULL REFERENCES image ON DELETE CASCADE,
    first_block INTEGER NOT NULL,
    last_block INTEGER NOT NULL,
    first_event INTEGER,
    last_event INTEGER,
    PRIMARY KEY (image, first_block)
) STRICT, WITHOUT ROWID;

-- blocks that don't fit those before them
CREATE TABLE contradiction (
    image INTEGER NOT NULL REFERENCES image ON DELETE CASCADE,
    block INTEGER NOT NULL,
    what TEXT NOT NULL,
    PRIMARY KEY (image, block, what)
) STRICT, WITHOUT ROWID;

-- Implausible values, as `lab check` prints them with its default thresholds; `says` is the text.
CREATE TABLE implausible (
    image INTEGER NOT NULL REFERENCES image ON DELETE CASCADE,
    finding INTEGER NOT NULL,
    what TEXT NOT NULL,
    life INTEGER NOT NULL,
    first_event INTEGER NOT NULL,
    last_event INTEGER NOT NULL,
    says TEXT NOT NULL,
    PRIMARY KEY (image, finding)
) STRICT, WITHOUT ROWID;

-- Whether the train braked after each brake command, as `lab why --json` prints it. `most` is NULL where it is unbounded.
CREATE TABLE braking (
    image INTEGER NOT NULL REFERENCES image ON DELETE CASCADE,
    life INTEGER NOT NULL,
    first_event INTEGER NOT NULL,
    last_event INTEGER NOT NULL,
    brake TEXT NOT NULL,
    trip_event INTEGER,
    answer TEXT NOT NULL,
    until TEXT NOT NULL,
    speed_m_per_h INTEGER,
    begins_least_ms INTEGER,
    begins_most_ms INTEGER,
    begins_least_cm INTEGER,
    begins_most_cm INTEGER,
    rate_least_cm_per_s2 INTEGER,
    rate_most_cm_per_s2 INTEGER,
    ends_least_ms INTEGER,
    ends_most_ms INTEGER,
    way_least_cm INTEGER,
    way_most_cm INTEGER,
    deceleration_cm_per_s2 INTEGER,
    reaction_ms INTEGER,
    promised_cm INTEGER,
    reaction TEXT,
    rate TEXT,
    way TEXT,
    PRIMARY KEY (image, first_event)
) STRICT, WITHOUT ROWID;

-- the lines of a replay, in their order
CREATE TABLE replay (
    image INTEGER NOT NULL REFERENCES image ON DELETE CASCADE,
    line INTEGER NOT NULL,
    verdict TEXT NOT NULL,
    life INTEGER,
    first_event INTEGER,
    last_event INTEGER,
    block INTEGER,
    reason TEXT,
    field TEXT,
    journal TEXT,
    kernel TEXT,
    PRIMARY KEY (image, line)
) STRICT, WITHOUT ROWID;

-- each readable block whose records are here; `source` says whether it belongs to the journal
CREATE TABLE block (
    image INTEGER NOT NULL REFERENCES image ON DELETE CASCADE,
    block INTEGER NOT NULL,
    source TEXT NOT NULL CHECK (source IN ('journal', 'after_gap', 'replaced', 'unwritten')),
    first_event INTEGER NOT NULL,
    last_event INTEGER NOT NULL,
    PRIMARY KEY (image, block)
) STRICT, WITHOUT ROWID;

-- the text of each cause of a trip, and its sections of SUBSET-026
CREATE TABLE trip_word (
    trip_cause TEXT PRIMARY KEY,
    says TEXT NOT NULL,
    section TEXT NOT NULL
) STRICT, WITHOUT ROWID;

-- Each record. Those of one stretch are of one life, and follow one another without a gap. speed_m_per_h is that of the
-- last reading of the stretch, 0 from a power-up on. An uncertainty beyond 2^62 cm is NULL. causes_not_known is the reason
-- why the causes of its brake aren't known; NULL where the replay agrees. trip_cause is why the trip that isn't acknowledged
-- was entered, trip_cause_event by which event. limit_cause is the kind of what decides the limit. utc_stated is the time
-- of day of time_ms by what the user stated, outside the journal and the proof. The last columns have values of the record
-- before it in its stretch (NULL at the beginning of a stretch), and the event, moment and place of the next one.
CREATE TABLE event (
    image INTEGER NOT NULL,
    block INTEGER NOT NULL,
    event INTEGER NOT NULL,
    life INTEGER NOT NULL,
    stretch INTEGER NOT NULL,
    kind TEXT NOT NULL CHECK (kind IN ('powerup', 'telegram', 'odometer', 'clock', 'driver')),
    time_ms INTEGER NOT NULL,
    mode TEXT NOT NULL,
    level INTEGER,
    brake TEXT NOT NULL CHECK (brake IN ('none', 'service', 'emergency')),
    shows_on_sight INTEGER NOT NULL CHECK (shows_on_sight IN (0, 1)),
    shows_shunting INTEGER NOT NULL CHECK (shows_shunting IN (0, 1)),
    shows_level_0 INTEGER NOT NULL CHECK (shows_level_0 IN (0, 1)),
    shows_trip INTEGER NOT NULL CHECK (shows_trip IN (0, 1)),
    shows_overridden INTEGER NOT NULL CHECK (shows_overridden IN (0, 1)),
    shows_not_revalidated INTEGER NOT NULL CHECK (shows_not_revalidated IN (0, 1)),
    shows_overspeed INTEGER NOT NULL CHECK (shows_overspeed IN (0, 1)),
    place_cm INTEGER,
    uncertainty_cm INTEGER,
    min_safe_front_cm INTEGER,
    max_safe_front_cm INTEGER,
    limit_m_per_h INTEGER,
    movement_cm INTEGER,
    reading_m_per_h INTEGER,
    speed_m_per_h INTEGER,
    word TEXT,
    now_ms INTEGER,
    action TEXT,
    refused INTEGER CHECK (refused IN (0, 1)),
    identity TEXT,
    running_number INTEGER,
    chosen_level INTEGER,
    confirmed TEXT,
    acknowledged TEXT,
    length_cm INTEGER,
    maximum_m_per_h INTEGER,
    category INTEGER,
    deceleration_cm_per_s2 INTEGER,
    reaction_ms INTEGER,
    causes_not_known TEXT,
    trip_cause TEXT REFERENCES trip_word,
    trip_cause_event INTEGER,
    limit_cause TEXT,
    utc_stated TEXT,
    mode_before TEXT,
    level_before INTEGER,
    brake_before TEXT,
    speed_before_m_per_h INTEGER,
    next_event INTEGER,
    next_ms INTEGER,
    next_cm INTEGER,
    PRIMARY KEY (image, block, event),
    FOREIGN KEY (image, block) REFERENCES block ON DELETE CASCADE
) STRICT, WITHOUT ROWID;

-- The lines of `etcs_lab why`, for events whose replay agrees: those that change the brake, the limit, a cause or the kind
-- of what decides the limit in their life. limit_cause_section has sections of SUBSET-026.
CREATE TABLE why (
    image INTEGER NOT NULL,
    block INTEGER NOT NULL,
    event INTEGER NOT NULL,
    brake TEXT NOT NULL CHECK (brake IN ('none', 'service', 'emergency')),
    limit_m_per_h INTEGER NOT NULL,
    speed_m_per_h INTEGER NOT NULL,
    backward_cm INTEGER NOT NULL,
    allowed_backward_cm INTEGER NOT NULL,
    trip_cause TEXT,
    trip_cause_event INTEGER,
    trip_cause_section TEXT,
    limit_cause TEXT,
    limit_cause_speed_m_per_h INTEGER,
    limit_cause_place_cm INTEGER,
    limit_cause_number INTEGER,
    limit_cause_section TEXT,
    PRIMARY KEY (image, block, event),
    FOREIGN KEY (image, block, event) REFERENCES event ON DELETE CASCADE
) STRICT, WITHOUT ROWID;

-- the text of each cause, and how it ends
CREATE TABLE cause_word (
    cause TEXT PRIMARY KEY,
    says TEXT NOT NULL,
    ends TEXT NOT NULL
) STRICT, WITHOUT ROWID;

-- the causes of the brake that hold after an event, and the event since which each has held
CREATE TABLE cause (
    image INTEGER NOT NULL,
    block INTEGER NOT NULL,
    event INTEGER NOT NULL,
    cause TEXT NOT NULL REFERENCES cause_word,
    since_event INTEGER NOT NULL,
    PRIMARY KEY (image, block, event, cause),
    FOREIGN KEY (image, block, event) REFERENCES event ON DELETE CASCADE
) STRICT, WITHOUT ROWID;

-- each telegram: its header, or the name of its first fault
CREATE TABLE telegram (
    image INTEGER NOT NULL,
    block INTEGER NOT NULL,
    event INTEGER NOT NULL,
    digits TEXT NOT NULL,
    fault TEXT,
    q_updown INTEGER,
    m_version INTEGER,
    q_media INTEGER,
    n_pig INTEGER,
    n_total INTEGER,
    m_dup INTEGER,
    m_mcount INTEGER,
    nid_c INTEGER,
    nid_bg INTEGER,
    q_link INTEGER,
    PRIMARY KEY (image, block, event),
    FOREIGN KEY (image, block, event) REFERENCES event ON DELETE CASCADE
) STRICT, WITHOUT ROWID;

-- the packets of a telegram, numbered from 0 in their order
CREATE TABLE packet (
    image INTEGER NOT NULL,
    block INTEGER NOT NULL,
    event INTEGER NOT NULL,
    packet INTEGER NOT NULL,
    nid_packet INTEGER NOT NULL,
    skipped_bits INTEGER,
    PRIMARY KEY (image, block, event, packet),
    FOREIGN KEY (image, block, event) REFERENCES telegram ON DELETE CASCADE
) STRICT, WITHOUT ROWID;

-- The packets of a telegram that the unit uses in no mode and in no direction, numbered from 0 in their order. `bit` is the
-- place of its first bit in the telegram, `bits` its length. `why`: the kernel doesn't know it; it is a packet 136, or comes
-- after one; or its telegram is refused.
CREATE TABLE unused (
    image INTEGER NOT NULL,
    block INTEGER NOT NULL,
    event INTEGER NOT NULL,
    unused INTEGER NOT NULL,
    nid_packet INTEGER NOT NULL,
    name TEXT,
    bit INTEGER NOT NULL,
    bits INTEGER NOT NULL,
    why TEXT NOT NULL CHECK (why IN ('not_known', 'infill', 'refused')),
    PRIMARY KEY (image, block, event, unused),
    FOREIGN KEY (image, block, event) REFERENCES telegram ON DELETE CASCADE
) STRICT, WITHOUT ROWID;

-- the fields of a packet, numbered from 0 in their order: names repeat (SUBSET-026, 7.5.1)
CREATE TABLE field (
    image INTEGER NOT NULL,
    block INTEGER NOT NULL,
    event INTEGER NOT NULL,
    packet INTEGER NOT NULL,
    field INTEGER NOT NULL,
    name TEXT NOT NULL,
    value INTEGER NOT NULL,
    PRIMARY KEY (image, block, event, packet, field),
    FOREIGN KEY (image, block, event, packet) REFERENCES packet ON DELETE CASCADE
) STRICT, WITHOUT ROWID;

-- each record of the journal
CREATE VIEW step AS
SELECT event.* FROM event JOIN block USING (image, block) WHERE source = 'journal';

CREATE VIEW mode_change AS
SELECT image, block, event, life, time_ms, place_cm, mode_before, mode, level, brake, kind, action
FROM step WHERE mode <> mode_before;

-- each event by which Trip was entered, and why
CREATE VIEW trip AS
SELECT image, block, event, life, time_ms, place_cm, mode_before, kind, speed_m_per_h / 1000.0 AS speed_kmh, trip_cause, says,
    section, causes_not_known
FROM step LEFT JOIN trip_word USING (trip_cause) WHERE mode = 'TR' AND mode_before <> 'TR';

-- each reading of the odometer
CREATE VIEW reading AS
SELECT image, block, event, life, time_ms, place_cm, min_safe_front_cm, max_safe_front_cm, movement_cm, mode, brake,
    reading_m_per_h / 1000.0 AS speed_kmh, limit_m_per_h / 1000.0 AS limit_kmh,
    (reading_m_per_h - limit_m_per_h) / 1000.0 AS over_limit_kmh
FROM step WHERE kind = 'odometer';

-- each action of the driver; `refused` is 1 if it can't have been accepted, NULL if the records don't show it
CREATE VIEW driver_action AS
SELECT image, block, event, life, time_ms, place_cm, action, acknowledged, confirmed, chosen_level, identity,
    running_number, mode_before, mode, speed_before_m_per_h / 1000.0 AS speed_before_kmh, brake, refused
FROM step WHERE kind = 'driver';

-- Each run of records that commands a brake: its first and its last one, and the values of the first one. `is_power_up`
-- says that it began with a power-up, as each life does. `causes` lists all known causes within it, each with the event
-- since which it holds, or why they aren't known.
CREATE VIEW brake_intervention AS
WITH
    numbered AS (
        SELECT *, SUM(brake_before IS NULL OR brake_before = 'none')
            OVER (PARTITION BY image ORDER BY block, event) AS intervention
        FROM step WHERE brake <> 'none'),
    extent AS (
        SELECT image, intervention, MIN(event) AS first_event, MAX(event) AS last_event, MIN(block) AS first_block,
            MAX(block) AS last_block, MAX(brake = 'emergency') AS has_emergency,
            MAX(speed_m_per_h - limit_m_per_h) / 1000.0 AS most_over_kmh
        FROM numbered GROUP BY image, intervention)
SELECT extent.image, intervention, first.life, first_event, extent.last_event, extent.first_block, extent.last_block,
    first.brake, CASE WHEN has_emergency THEN 'emergency' ELSE 'service' END AS worst, first.kind,
    first.kind = 'powerup' AS is_power_up, first.time_ms, last.next_ms AS until_ms, first.place_cm,
    last.next_cm AS until_cm, first.mode_before, first.mode, first.speed_m_per_h / 1000.0 AS speed_kmh,
    first.limit_m_per_h / 1000.0 AS limit_kmh, most_over_kmh, first.limit_cause, first.causes_not_known,
    COALESCE('not known: ' || first.causes_not_known, (
        SELECT group_concat(cause || ' since ' || since_event, ', ') FROM (
            SELECT DISTINCT cause, since_event FROM cause
            WHERE cause.image = extent.image AND cause.block BETWEEN first_block AND extent.last_block
                AND cause.event BETWEEN first_event AND extent.last_event
            ORDER BY since_event, cause))) AS causes
FROM extent
JOIN step AS first ON (first.image, first.block, first.event) = (extent.image, extent.first_block, extent.first_event)
JOIN step AS last ON (last.image, last.block, last.event) = (extent.image, extent.last_block, extent.last_event);

-- Each cause of an intervention: the event since which it holds, and the last event after which it is known to hold.
CREATE VIEW intervention_cause AS
SELECT run.image, intervention, run.life, first_event, last_event, cause, since_event, MAX(cause.event) AS held_until_event,
    says, ends
FROM brake_intervention AS run
JOIN cause ON cause.image = run.image AND cause.block BETWEEN first_block AND last_block
    AND cause.event BETWEEN first_event AND last_event
JOIN cause_word USING (cause)
GROUP BY run.image, intervention, cause, since_event;

-- Each run of records of a stretch whose speed is above the limit: from the first one to the record after the last one
-- (`until`, NULL if there is none).
CREATE VIEW above_limit AS
WITH
    numbered AS (
        SELECT image, stretch, block, event, speed_m_per_h - limit_m_per_h AS over,
            event - ROW_NUMBER() OVER (PARTITION BY image, stretch ORDER BY block, event) AS run
        FROM step WHERE speed_m_per_h > limit_m_per_h),
    extent AS (
        SELECT image, stretch, run, MIN(event) AS first_event, MAX(event) AS last_event, MIN(block) AS first_block,
            MAX(block) AS last_block, MAX(over) / 1000.0 AS most_over_kmh
        FROM numbered GROUP BY image, stretch, run)
SELECT extent.image, first.life, first_event, extent.last_event, last.next_event AS until_event, most_over_kmh,
    first.time_ms, last.next_ms AS until_ms, last.next_ms - first.time_ms AS lasted_ms, first.place_cm,
    last.next_cm AS until_cm, last.next_cm - first.place_cm AS way_cm
FROM extent
JOIN step AS first ON (first.image, first.block, first.event) = (extent.image, extent.first_block, extent.first_event)
JOIN step AS last ON (last.image, last.block, last.event) = (extent.image, extent.last_block, extent.last_event);

PRAGMA user_version = 8;
