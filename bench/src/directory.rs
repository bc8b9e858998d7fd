//! The command directory: every command of the specification's list of gateway
//! commands, with the fewest and the most data bytes of its layouts. It was
//! read from the specification for itself; each entry names the section and
//! the table that it rests on.

/// A known command.
#[derive(Clone, Copy, Debug, PartialEq, Eq)]
pub struct Entry {
    pub number: u16,
    pub least: usize,
    pub greatest: usize,
}

impl Entry {
    pub fn allows(&self, data: usize) -> bool {
        (self.least..=self.greatest).contains(&data)
    }
}

const fn entry(number: u16, least: usize, greatest: usize) -> Entry {
    Entry {
        number,
        least,
        greatest,
    }
}

/// The entry of a command. A command is known exactly if it has one.
pub fn find(number: u16) -> Option<Entry> {
    let place = ENTRIES.binary_search_by_key(&number, |entry| entry.number);
    place.ok().map(|place| ENTRIES[place])
}

/// The directory as the program `commands` writes it.
pub fn listing() -> String {
    let lines = ENTRIES.iter().map(|entry| {
        let Entry {
            number,
            least,
            greatest,
        } = entry;
        format!("{number:04X} {least} {greatest}\n")
    });
    lines.collect()
}

/// Ascending by number, with the commands' names.
#[rustfmt::skip]
pub const ENTRIES: [Entry; 150] = [
    entry(0x0000, 1, 1), // GW_ERROR_NTF: 6.10, Table 42
    entry(0x0001, 0, 0), // GW_REBOOT_REQ: 6.5.1, Table 33
    entry(0x0002, 0, 0), // GW_REBOOT_CFM: 6.5.2, Table 34
    entry(0x0003, 0, 0), // GW_SET_FACTORY_DEFAULT_REQ: 6.6.1, Table 35
    entry(0x0004, 0, 0), // GW_SET_FACTORY_DEFAULT_CFM: 6.6.2, Table 36
    entry(0x0008, 0, 0), // GW_GET_VERSION_REQ: 6.1.1, Table 13
    entry(0x0009, 9, 9), // GW_GET_VERSION_CFM: 6.1.2, Table 14
    entry(0x000A, 0, 0), // GW_GET_PROTOCOL_VERSION_REQ: 6.1.3, Table 16
    entry(0x000B, 4, 4), // GW_GET_PROTOCOL_VERSION_CFM: 6.1.4, Table 17
    entry(0x000C, 0, 0), // GW_GET_STATE_REQ: 6.2.1, Table 18
    entry(0x000D, 6, 6), // GW_GET_STATE_CFM: 6.2.2, Table 19
    entry(0x000E, 0, 0), // GW_LEAVE_LEARN_STATE_REQ: 6.3.1, Table 22
    entry(0x000F, 1, 1), // GW_LEAVE_LEARN_STATE_CFM: 6.3.2, Table 23
    entry(0x00E0, 0, 0), // GW_GET_NETWORK_SETUP_REQ: 6.8.1, Table 37
    entry(0x00E1, 13, 13), // GW_GET_NETWORK_SETUP_CFM: 6.8.2, Table 38
    entry(0x00E2, 13, 13), // GW_SET_NETWORK_SETUP_REQ: 6.9.1, Table 40
    entry(0x00E3, 0, 0), // GW_SET_NETWORK_SETUP_CFM: 6.9.2, Table 41
    entry(0x0100, 0, 0), // GW_CS_GET_SYSTEMTABLE_DATA_REQ: 7.2, Table 44
    entry(0x0101, 0, 0), // GW_CS_GET_SYSTEMTABLE_DATA_CFM: 7.3, Table 45
    entry(0x0102, 2, 112), // GW_CS_GET_SYSTEMTABLE_DATA_NTF: 7.4, Tables 46 and 55
    entry(0x0103, 1, 1), // GW_CS_DISCOVER_NODES_REQ: 7.5.1, Table 56
    entry(0x0104, 0, 0), // GW_CS_DISCOVER_NODES_CFM: 7.5.2, Table 58
    entry(0x0105, 131, 131), // GW_CS_DISCOVER_NODES_NTF: 7.5.3, Table 59
    entry(0x0106, 26, 26), // GW_CS_REMOVE_NODES_REQ: 7.6.1, Table 61
    entry(0x0107, 1, 1), // GW_CS_REMOVE_NODES_CFM: 7.6.2, Table 62
    entry(0x0108, 0, 0), // GW_CS_VIRGIN_STATE_REQ: 7.7.1, Table 64
    entry(0x0109, 0, 0), // GW_CS_VIRGIN_STATE_CFM: 7.7.2, Table 65
    entry(0x010A, 1, 1), // GW_CS_CONTROLLER_COPY_REQ: 7.8.1, Table 66
    entry(0x010B, 0, 0), // GW_CS_CONTROLLER_COPY_CFM: 7.8.2, Table 68
    entry(0x010C, 2, 2), // GW_CS_CONTROLLER_COPY_NTF: 7.8.3, Table 69
    entry(0x010D, 0, 0), // GW_CS_CONTROLLER_COPY_CANCEL_NTF: 7.8.4, Table 72
    entry(0x010E, 0, 0), // GW_CS_RECEIVE_KEY_REQ: 7.10.1, Table 77
    entry(0x010F, 0, 0), // GW_CS_RECEIVE_KEY_CFM: 7.10.2, Table 78
    entry(0x0110, 53, 53), // GW_CS_RECEIVE_KEY_NTF: 7.10.3, Table 79
    entry(0x0111, 3, 3), // GW_CS_PGC_JOB_NTF: 7.12.4, Table 86
    entry(0x0112, 52, 52), // GW_CS_SYSTEM_TABLE_UPDATE_NTF: 7.13.1
    entry(0x0113, 0, 0), // GW_CS_GENERATE_NEW_KEY_REQ: 7.9.1, Table 73
    entry(0x0114, 0, 0), // GW_CS_GENERATE_NEW_KEY_CFM: 7.9.2, Table 74
    entry(0x0115, 53, 53), // GW_CS_GENERATE_NEW_KEY_NTF: 7.9.3, Table 75
    entry(0x0116, 0, 0), // GW_CS_REPAIR_KEY_REQ: 7.11.1, Table 81
    entry(0x0117, 0, 0), // GW_CS_REPAIR_KEY_CFM: 7.11.2, Table 82
    entry(0x0118, 53, 53), // GW_CS_REPAIR_KEY_NTF: 7.11.3, Table 83
    entry(0x0119, 26, 26), // GW_CS_ACTIVATE_CONFIGURATION_MODE_REQ: 7.14.1, Table 90
    entry(0x011A, 79, 79), // GW_CS_ACTIVATE_CONFIGURATION_MODE_CFM: 7.14.2, Table 91
    entry(0x0200, 1, 1), // GW_GET_NODE_INFORMATION_REQ: 8.3.1, Table 98
    entry(0x0201, 2, 2), // GW_GET_NODE_INFORMATION_CFM: 8.3.2, Table 99
    entry(0x0202, 0, 0), // GW_GET_ALL_NODES_INFORMATION_REQ: 8.3.10, Table 117
    entry(0x0203, 2, 2), // GW_GET_ALL_NODES_INFORMATION_CFM: 8.3.11, Table 118
    entry(0x0204, 124, 124), // GW_GET_ALL_NODES_INFORMATION_NTF: 8.3.12, Table 120
    entry(0x0205, 0, 0), // GW_GET_ALL_NODES_INFORMATION_FINISHED_NTF: 8.3.13, Table 121
    entry(0x0206, 2, 2), // GW_SET_NODE_VARIATION_REQ: 8.3.4, Table 108
    entry(0x0207, 2, 2), // GW_SET_NODE_VARIATION_CFM: 8.3.5, Table 110
    entry(0x0208, 65, 65), // GW_SET_NODE_NAME_REQ: 8.3.6, Table 112
    entry(0x0209, 2, 2), // GW_SET_NODE_NAME_CFM: 8.3.7, Table 113
    entry(0x020C, 69, 69), // GW_NODE_INFORMATION_CHANGED_NTF: 8.3.8, Table 115
    entry(0x020D, 4, 4), // GW_SET_NODE_ORDER_AND_PLACEMENT_REQ: 8.3.14, Table 122
    entry(0x020E, 2, 2), // GW_SET_NODE_ORDER_AND_PLACEMENT_CFM: 8.3.15, Table 123
    entry(0x0210, 124, 124), // GW_GET_NODE_INFORMATION_NTF: 8.3.3, Table 101
    entry(0x0211, 20, 20), // GW_NODE_STATE_POSITION_CHANGED_NTF: 8.3.9, Table 116
    entry(0x0220, 1, 1), // GW_GET_GROUP_INFORMATION_REQ: 8.4.1, Table 125
    entry(0x0221, 2, 2), // GW_GET_GROUP_INFORMATION_CFM: 8.4.2, Table 126
    entry(0x0222, 99, 99), // GW_SET_GROUP_INFORMATION_REQ: 8.4.6, Table 136
    entry(0x0223, 2, 2), // GW_SET_GROUP_INFORMATION_CFM: 8.4.7, Table 137
    entry(0x0224, 2, 100), // GW_GROUP_INFORMATION_CHANGED_NTF: 8.4.15, Tables 149 and 150
    entry(0x0225, 1, 1), // GW_DELETE_GROUP_REQ: 8.4.8, Table 139
    entry(0x0226, 2, 2), // GW_DELETE_GROUP_CFM: 8.4.9, Table 140
    entry(0x0227, 96, 96), // GW_NEW_GROUP_REQ: 8.4.4, Table 132
    entry(0x0228, 2, 2), // GW_NEW_GROUP_CFM: 8.4.5, Table 134
    entry(0x0229, 2, 2), // GW_GET_ALL_GROUPS_INFORMATION_REQ: 8.4.11, Table 143
    entry(0x022A, 2, 2), // GW_GET_ALL_GROUPS_INFORMATION_CFM: 8.4.12, Table 145
    entry(0x022B, 99, 99), // GW_GET_ALL_GROUPS_INFORMATION_NTF: 8.4.13, Table 147
    entry(0x022C, 0, 0), // GW_GET_ALL_GROUPS_INFORMATION_FINISHED_NTF: 8.4.14, Table 148
    entry(0x022D, 1, 1), // GW_GROUP_DELETED_NTF: 8.4.10, Table 142
    entry(0x0230, 99, 99), // GW_GET_GROUP_INFORMATION_NTF: 8.4.3, Table 128
    entry(0x0240, 0, 0), // GW_HOUSE_STATUS_MONITOR_ENABLE_REQ: 8.2.1, Table 94
    entry(0x0241, 0, 0), // GW_HOUSE_STATUS_MONITOR_ENABLE_CFM: 8.2.2, Table 95
    entry(0x0242, 0, 0), // GW_HOUSE_STATUS_MONITOR_DISABLE_REQ: 8.2.3, Table 96
    entry(0x0243, 0, 0), // GW_HOUSE_STATUS_MONITOR_DISABLE_CFM: 8.2.4, Table 97
    entry(0x0300, 66, 66), // GW_COMMAND_SEND_REQ: 10.1.1, Table 163
    entry(0x0301, 3, 3), // GW_COMMAND_SEND_CFM: 10.1.2, Table 171
    entry(0x0302, 13, 13), // GW_COMMAND_RUN_STATUS_NTF: 10.1.3, Table 173
    entry(0x0303, 6, 6), // GW_COMMAND_REMAINING_TIME_NTF: 10.1.4, Table 178
    entry(0x0304, 2, 2), // GW_SESSION_FINISHED_NTF: 10.1.5, Table 179
    entry(0x0305, 26, 26), // GW_STATUS_REQUEST_REQ: 10.3.1, Table 185
    entry(0x0306, 3, 3), // GW_STATUS_REQUEST_CFM: 10.3.2, Table 187
    entry(0x0307, 18, 59), // GW_STATUS_REQUEST_NTF: 10.3.3, Tables 188 and 189
    entry(0x0308, 27, 27), // GW_WINK_SEND_REQ: 10.4.1, Table 192
    entry(0x0309, 3, 3), // GW_WINK_SEND_CFM: 10.4.2, Table 195
    entry(0x030A, 2, 2), // GW_WINK_SEND_NTF: 10.4.4, Table 197
    entry(0x0310, 31, 31), // GW_SET_LIMITATION_REQ: 10.5.2, Table 198
    entry(0x0311, 3, 3), // GW_SET_LIMITATION_CFM: 10.5.3, Table 201
    entry(0x0312, 25, 25), // GW_GET_LIMITATION_STATUS_REQ: 10.5.8, Table 204
    entry(0x0313, 3, 3), // GW_GET_LIMITATION_STATUS_CFM: 10.5.9, Table 206
    entry(0x0314, 10, 10), // GW_LIMITATION_STATUS_NTF: 10.5.4, Table 203
    entry(0x0320, 31, 31), // GW_MODE_SEND_REQ: 10.6.1, Table 208
    entry(0x0321, 3, 3), // GW_MODE_SEND_CFM: 10.6.2, Table 209
    entry(0x0322, 0, 250), // GW_MODE_SEND_NTF: no layout
    entry(0x0400, 0, 0), // GW_INITIALIZE_SCENE_REQ: 11.1.2, Table 219
    entry(0x0401, 1, 1), // GW_INITIALIZE_SCENE_CFM: 11.1.3, Table 220
    entry(0x0402, 26, 26), // GW_INITIALIZE_SCENE_NTF: 11.1.4, Table 222
    entry(0x0403, 0, 0), // GW_INITIALIZE_SCENE_CANCEL_REQ: 11.2.1, Table 224
    entry(0x0404, 1, 1), // GW_INITIALIZE_SCENE_CANCEL_CFM: 11.2.2, Table 225
    entry(0x0405, 64, 64), // GW_RECORD_SCENE_REQ: 11.4.1, Table 227
    entry(0x0406, 1, 1), // GW_RECORD_SCENE_CFM: 11.4.2, Table 229
    entry(0x0407, 2, 2), // GW_RECORD_SCENE_NTF: 11.4.3, Table 230
    entry(0x0408, 1, 1), // GW_DELETE_SCENE_REQ: 11.5.1, Table 232
    entry(0x0409, 2, 2), // GW_DELETE_SCENE_CFM: 11.5.2, Table 233
    entry(0x040A, 65, 65), // GW_RENAME_SCENE_REQ: 11.6.1, Table 235
    entry(0x040B, 2, 2), // GW_RENAME_SCENE_CFM: 11.6.1, Table 236
    entry(0x040C, 0, 0), // GW_GET_SCENE_LIST_REQ: 11.7.1, Table 238
    entry(0x040D, 1, 1), // GW_GET_SCENE_LIST_CFM: 11.7.2, Table 239
    entry(0x040E, 2, 197), // GW_GET_SCENE_LIST_NTF: 11.7.3, Tables 240 and 241
    entry(0x040F, 1, 1), // GW_GET_SCENE_INFOAMATION_REQ: 11.8.1, Table 244
    entry(0x0410, 2, 2), // GW_GET_SCENE_INFOAMATION_CFM: 11.8.2, Table 245
    entry(0x0411, 71, 247), // GW_GET_SCENE_INFOAMATION_NTF: 11.8.3, Table 247
    entry(0x0412, 6, 6), // GW_ACTIVATE_SCENE_REQ: 11.10.1, Table 251
    entry(0x0413, 3, 3), // GW_ACTIVATE_SCENE_CFM: 11.10.2, Table 253
    entry(0x0415, 5, 5), // GW_STOP_SCENE_REQ: 11.11.1, Table 255
    entry(0x0416, 3, 3), // GW_STOP_SCENE_CFM: 11.11.2, Table 256
    entry(0x0419, 2, 2), // GW_SCENE_INFORMATION_CHANGED_NTF: 11.9.1, Table 249
    entry(0x0447, 13, 13), // GW_ACTIVATE_PRODUCTGROUP_REQ: 10.7.1, Table 211
    entry(0x0448, 3, 3), // GW_ACTIVATE_PRODUCTGROUP_CFM: 10.7.2, Table 217
    entry(0x0449, 0, 250), // GW_ACTIVATE_PRODUCTGROUP_NTF: no layout
    entry(0x0460, 0, 0), // GW_GET_CONTACT_INPUT_LINK_LIST_REQ: 12.1.5, Table 271
    entry(0x0461, 161, 171), // GW_GET_CONTACT_INPUT_LINK_LIST_CFM: 12.1.6, Tables 272 to 274
    entry(0x0462, 17, 17), // GW_SET_CONTACT_INPUT_LINK_REQ: 12.1.1, Table 258
    entry(0x0463, 2, 2), // GW_SET_CONTACT_INPUT_LINK_CFM: 12.1.2, Table 266
    entry(0x0464, 1, 1), // GW_REMOVE_CONTACT_INPUT_LINK_REQ: 12.1.3, Table 268
    entry(0x0465, 2, 2), // GW_REMOVE_CONTACT_INPUT_LINK_CFM: 12.1.4, Table 269
    entry(0x0500, 0, 0), // GW_GET_ACTIVATION_LOG_HEADER_REQ: 9.1.1, Table 152
    entry(0x0501, 4, 4), // GW_GET_ACTIVATION_LOG_HEADER_CFM: 9.1.2, Table 153
    entry(0x0502, 0, 0), // GW_CLEAR_ACTIVATION_LOG_REQ: 9.1.3, Table 154
    entry(0x0503, 0, 0), // GW_CLEAR_ACTIVATION_LOG_CFM: 9.1.4, Table 155
    entry(0x0504, 2, 2), // GW_GET_ACTIVATION_LOG_LINE_REQ: 9.1.5, Table 156
    entry(0x0505, 17, 17), // GW_GET_ACTIVATION_LOG_LINE_CFM: 9.1.6, Table 157
    entry(0x0506, 0, 0), // GW_ACTIVATION_LOG_UPDATED_NTF: 9.1.10, Table 162
    entry(0x0507, 4, 4), // GW_GET_MULTIPLE_ACTIVATION_LOG_LINES_REQ: 9.1.7, Table 158
    entry(0x0508, 17, 17), // GW_GET_MULTIPLE_ACTIVATION_LOG_LINES_NTF: 9.1.8, Table 159
    entry(0x0509, 3, 3), // GW_GET_MULTIPLE_ACTIVATION_LOG_LINES_CFM: 9.1.9, Table 160
    entry(0x2000, 4, 4), // GW_SET_UTC_REQ: 6.4.1, Table 25
    entry(0x2001, 0, 0), // GW_SET_UTC_CFM: 6.4.2, Table 26
    entry(0x2002, 64, 64), // GW_RTC_SET_TIME_ZONE_REQ: 6.4.3, Table 27
    entry(0x2003, 1, 1), // GW_RTC_SET_TIME_ZONE_CFM: 6.4.4, Table 28
    entry(0x2004, 0, 0), // GW_GET_LOCAL_TIME_REQ: 6.4.5, Table 30
    entry(0x2005, 15, 15), // GW_GET_LOCAL_TIME_CFM: 6.4.6, Table 31
    entry(0x3000, 32, 32), // GW_PASSWORD_ENTER_REQ: 5.1.1, Table 6
    entry(0x3001, 1, 1), // GW_PASSWORD_ENTER_CFM: 5.1.2, Table 7
    entry(0x3002, 64, 64), // GW_PASSWORD_CHANGE_REQ: 5.1.3, Table 9
    entry(0x3003, 1, 1), // GW_PASSWORD_CHANGE_CFM: 5.1.4, Table 10
    entry(0x3004, 32, 32), // GW_PASSWORD_CHANGE_NTF: 5.1.5, Table 12
];

#[cfg(test)]
mod tests {
    use super::*;
    use crate::outcome::DATA_MOST;

    #[test]
    fn strictly_ascending() {
        assert!(ENTRIES
            .windows(2)
            .all(|pair| pair[0].number < pair[1].number));
    }

    #[test]
    fn ranges_fit_a_frame() {
        let fits = |entry: &Entry| entry.least <= entry.greatest && entry.greatest <= DATA_MOST;
        assert!(ENTRIES.iter().all(fits));
    }

    #[test]
    fn found_exactly_if_listed() {
        for number in 0..=u16::MAX {
            let listed = ENTRIES.iter().find(|entry| entry.number == number);
            assert_eq!(find(number).as_ref(), listed);
        }
    }

    #[test]
    fn the_requests_of_the_paper() {
        let served = [
            (0x3000, 32),
            (0x3002, 64),
            (0x0200, 1),
            (0x0206, 2),
            (0x0208, 65),
            (0x020D, 4),
            (0x0106, 26),
            (0x0108, 0),
            (0x0320, 31),
        ];
        for (number, data) in served {
            assert_eq!(find(number), Some(entry(number, data, data)));
        }
    }
}
