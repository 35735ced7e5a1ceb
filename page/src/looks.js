// What a look at a sector can find: its name, and its colour. bin/picture has the same colours, which people with any
// kind of colour vision can distinguish.
export const LOOKS = {
    OK: { name: "intact", colour: "#0072B2" },
    DELETED: { name: "intact, marked deleted", colour: "#56B4E9" },
    NO_DATA: { name: "no data", colour: "#F0E442" },
    BAD_CRC: { name: "damaged: the CRC of the data is wrong", colour: "#D55E00" },
    NO_SIZE: { name: "no such size code", colour: "#CC79A7" },
};

export const keyOf = (field) => `C ${field.c} H ${field.h} R ${field.r} N ${field.n}`;
export const placeOf = (field) => `cylinder ${field.cylinder}, head ${field.head}`;
