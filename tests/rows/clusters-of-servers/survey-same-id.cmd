verify --survey survey-same-id.survey
