survey
