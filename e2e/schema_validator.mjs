// A validator of the few keywords of JSON Schema that docs/chunkpack.schema.json uses. A schema with another keyword is refused.
const TELLS = new Set(['$schema', '$defs', 'title', 'description', 'default']);

const types = {
  object: (value) => value !== null && typeof value === 'object' && !Array.isArray(value),
  array: Array.isArray,
  string: (value) => typeof value === 'string',
  boolean: (value) => typeof value === 'boolean',
  integer: Number.isInteger,
};
const { object: isObject, array: isArray, string: isString, integer: isInteger } = types;

// Each says whether a value meets the keyword's argument; `valid` asks for a schema within.
const keywords = {
  type: (name, value) => types[name](value),
  enum: (members, value) => members.includes(value),
  anyOf: (schemas, value, valid) => schemas.some((schema) => valid(schema, value)),
  required: (names, value) => !isObject(value) || names.every((name) => Object.hasOwn(value, name)),
  propertyNames: (schema, value, valid) => !isObject(value) || Object.keys(value).every((name) => valid(schema, name)),
  properties: (schemas, value, valid) => !isObject(value) || Object.keys(value).every((name) => !Object.hasOwn(schemas, name) || valid(schemas[name], value[name])),
  minProperties: (count, value) => !isObject(value) || Object.keys(value).length >= count,
  maxProperties: (count, value) => !isObject(value) || Object.keys(value).length <= count,
  items: (schema, value, valid) => !isArray(value) || value.every((member) => valid(schema, member)),
  minItems: (count, value) => !isArray(value) || value.length >= count,
  minLength: (count, value) => !isString(value) || [...value].length >= count,
  pattern: (text, value) => !isString(value) || new RegExp(text, 'u').test(value),
  minimum: (bound, value) => !isInteger(value) || value >= bound,
  maximum: (bound, value) => !isInteger(value) || value <= bound,
};

function areOthersValid(schema, value, valid) {
  if (!isObject(value) || schema.additionalProperties === undefined) return true;
  const others = Object.keys(value).filter((name) => !Object.hasOwn(schema.properties ?? {}, name));
  return schema.additionalProperties === false ? others.length === 0 : others.every((name) => valid(schema.additionalProperties, value[name]));
}

export function validator(root) {
  const valid = (schema, value) => Object.entries(schema).every(([key, argument]) => {
    if (TELLS.has(key)) return true;
    if (key === '$ref') return valid(root.$defs[argument.replace('#/$defs/', '')], value);
    if (key === 'additionalProperties') return areOthersValid(schema, value, valid);
    if (!Object.hasOwn(keywords, key)) throw new Error(`keyword ${key}`);
    return keywords[key](argument, value, valid);
  });
  return (value) => valid(root, value);
}
